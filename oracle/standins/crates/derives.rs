//! Stand-in for the derive macros of serde and tsify: each derives nothing.
extern crate proc_macro;

use proc_macro::TokenStream;

#[proc_macro_derive(Serialize, attributes(serde))]
pub fn serialize(_item: TokenStream) -> TokenStream {
    TokenStream::new()
}

#[proc_macro_derive(Deserialize, attributes(serde))]
pub fn deserialize(_item: TokenStream) -> TokenStream {
    TokenStream::new()
}

#[proc_macro_derive(Tsify, attributes(tsify))]
pub fn tsify(_item: TokenStream) -> TokenStream {
    TokenStream::new()
}
