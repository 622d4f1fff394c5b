//! Stand-in for `tracing`: nothing is traced.

use proc_macro::TokenStream;

/// Returns the item unchanged.
#[proc_macro_attribute]
pub fn instrument(_arguments: TokenStream, item: TokenStream) -> TokenStream {
    item
}

/// Expands to nothing.
#[proc_macro]
pub fn error(_arguments: TokenStream) -> TokenStream {
    TokenStream::new()
}
