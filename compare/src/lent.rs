//! Buffers to lend: filled with a pattern first, with guards on both sides, and looked at afterwards.

/// Elements on each side that no call may touch.
const GUARD: usize = 8;

/// Elements that are shown of a difference.
const SHOWN: usize = 48;

/// What a lent buffer holds after a call.
#[derive(Clone, Copy, Debug)]
pub enum After<'a, T> {
    /// As it was.
    Untouched,
    /// These at the front, and what was there beyond.
    Front(&'a [T]),
    /// These at the front, and zeros beyond.
    Padded(&'a [T]),
}

/// Whether each is this one; of many, each is the one before it, which is compared at once.
fn all_are<T: Copy + PartialEq>(part: &[T], one: T) -> bool {
    match part {
        [first, behind @ ..] if SHOWN < part.len() => *first == one && *behind == part[..behind.len()],
        few => few.iter().all(|x| *x == one),
    }
}

pub struct Lent<T> {
    block: Vec<T>,
    guard: usize,
    pattern: T,
}

impl<T: Copy + Default + PartialEq + std::fmt::Debug> Lent<T> {
    /// With `alone` each buffer is a heap block of its own with no guards, so that a memory checker sees its bounds.
    pub fn new(pattern: T, alone: bool) -> Self {
        let guard = if alone { 0 } else { GUARD };
        Lent { block: vec![pattern; 2 * guard], guard, pattern }
    }

    pub fn lend(&mut self, len: usize) -> &mut [T] {
        if self.guard == 0 {
            self.block = Vec::with_capacity(len);
        }
        self.block.clear();
        self.block.resize(len + 2 * self.guard, self.pattern);
        &mut self.block[self.guard..self.guard + len]
    }

    fn lent(&self) -> &[T] {
        &self.block[self.guard..self.block.len() - self.guard]
    }

    /// What must stand at the front, and what beyond it.
    fn expected<'a>(&self, after: After<'a, T>) -> (&'a [T], T) {
        match after {
            After::Untouched => (&[], self.pattern),
            After::Front(xs) => (xs, self.pattern),
            After::Padded(xs) => (xs, T::default()),
        }
    }

    pub fn is(&self, after: After<T>) -> bool {
        let (before, past) = (&self.block[..self.guard], &self.block[self.block.len() - self.guard..]);
        let ((front, beyond), lent) = (self.expected(after), self.lent());
        let guarded = all_are(before, self.pattern) && all_are(past, self.pattern);
        guarded && lent.starts_with(front) && all_are(&lent[front.len()..], beyond)
    }

    /// The first that were lent.
    pub fn front(&self, count: usize) -> &[T] {
        &self.lent()[..count]
    }

    /// What stands there and what must, from the front or, of many, from the first on that is another.
    pub fn shown(&self, after: After<T>) -> String {
        let ((front, beyond), lent) = (self.expected(after), self.lent());
        let must = |at: usize| front.get(at).copied().unwrap_or(beyond);
        let other = (0..lent.len()).find(|at| lent[*at] != must(*at)).unwrap_or(0);
        let first = if lent.len() <= SHOWN { 0 } else { other };
        let past = lent.len().min(first + SHOWN);
        let musts: Vec<T> = (first..past).map(must).collect();
        format!("from {first} on {:?} and not {musts:?}, of {} that must be there", &lent[first..past], front.len())
    }
}
