//! A stand-in for the crate `enumset`: of it the Rust needs only that the derive makes an
//! enum a plain value that can be copied and compared.

use proc_macro::TokenStream;
use proc_macro::TokenTree;

#[proc_macro_derive(EnumSetType, attributes(enumset))]
pub fn derive_enum_set_type(item: TokenStream) -> TokenStream {
    let name = enum_name(item).expect("EnumSetType is derived for an enum");
    format!(
        "#[automatically_derived]
         impl ::core::clone::Clone for {name} {{ fn clone(&self) -> Self {{ *self }} }}
         #[automatically_derived]
         impl ::core::marker::Copy for {name} {{}}
         #[automatically_derived]
         impl ::core::cmp::PartialEq for {name} {{
             fn eq(&self, other: &Self) -> bool {{ *self as u64 == *other as u64 }}
         }}
         #[automatically_derived]
         impl ::core::cmp::Eq for {name} {{}}"
    )
    .parse()
    .expect("the derived implementations are Rust")
}

fn enum_name(item: TokenStream) -> Option<String> {
    item.into_iter()
        .skip_while(|token| !is_word(token, "enum"))
        .nth(1)
        .map(|name| name.to_string())
}

fn is_word(token: &TokenTree, word: &str) -> bool {
    matches!(token, TokenTree::Ident(found) if found.to_string() == word)
}
