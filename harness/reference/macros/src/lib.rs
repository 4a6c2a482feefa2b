//! The attributes and derives that the published text names. Each leaves its item as it is.

use proc_macro::TokenStream;

/// In place of the attribute that adds reading and writing of files.
#[proc_macro_attribute]
pub fn serde_api(_: TokenStream, item: TokenStream) -> TokenStream {
    item
}

/// In place of the attribute that adds a Python interface.
#[proc_macro_attribute]
pub fn pyo3_api(_: TokenStream, item: TokenStream) -> TokenStream {
    item
}

/// In place of `readonly::make`, which hides fields from writing elsewhere.
#[proc_macro_attribute]
pub fn make(_: TokenStream, item: TokenStream) -> TokenStream {
    item
}

#[proc_macro_derive(Serialize)]
pub fn serialize(_: TokenStream) -> TokenStream {
    TokenStream::new()
}

#[proc_macro_derive(Deserialize)]
pub fn deserialize(_: TokenStream) -> TokenStream {
    TokenStream::new()
}
