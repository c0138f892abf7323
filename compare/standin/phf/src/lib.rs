//! In the place of `phf`: its macro's spelling and `get` and `entries`, by a search from the front.

pub struct Map<K: 'static, V: 'static>(pub &'static [(K, V)]);

impl<V> Map<&'static str, V> {
    pub fn get(&self, key: &str) -> Option<&V> {
        self.0.iter().find(|(name, _)| *name == key).map(|(_, value)| value)
    }

    pub fn entries(&self) -> impl Iterator<Item = (&&'static str, &V)> {
        self.0.iter().map(|(name, value)| (name, value))
    }
}

#[macro_export]
macro_rules! phf_map {
    ($($name:expr => $value:expr),* $(,)?) => { $crate::Map(&[$(($name, $value)),*]) };
}
