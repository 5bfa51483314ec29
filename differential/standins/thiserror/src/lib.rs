//! Stand-in for thiserror: a derive that accepts the attributes and makes nothing. The texts of errors are not compared.

use proc_macro::TokenStream;

#[proc_macro_derive(Error, attributes(error, source))]
pub fn error(_item: TokenStream) -> TokenStream {
    TokenStream::new()
}
