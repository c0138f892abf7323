//! In the place of `thiserror`: takes the derive and its attributes, and makes nothing of them.

#[proc_macro_derive(Error, attributes(error, source, from))]
pub fn error(_: proc_macro::TokenStream) -> proc_macro::TokenStream {
    proc_macro::TokenStream::new()
}
