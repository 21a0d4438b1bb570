//! Stand-ins for four derives of zerocopy. Each writes an empty `impl`: the traits carry the work.

use proc_macro::{TokenStream, TokenTree};

/// The name that follows the word `struct`.
fn struct_name(item: TokenStream) -> String {
    let mut tokens = item.into_iter();
    while let Some(token) = tokens.next() {
        if matches!(&token, TokenTree::Ident(word) if word.to_string() == "struct") {
            if let Some(TokenTree::Ident(name)) = tokens.next() {
                return name.to_string();
            }
        }
    }
    panic!("this derive is for structs only")
}

fn implement(trait_name: &str, item: TokenStream) -> TokenStream {
    let name = struct_name(item);
    let code = format!("unsafe impl ::zerocopy::{trait_name} for {name} {{}}");
    code.parse().expect("the code is one impl block")
}

#[proc_macro_derive(FromBytes)]
pub fn from_bytes(item: TokenStream) -> TokenStream {
    implement("FromBytes", item)
}

#[proc_macro_derive(IntoBytes)]
pub fn into_bytes(item: TokenStream) -> TokenStream {
    implement("IntoBytes", item)
}

#[proc_macro_derive(KnownLayout)]
pub fn known_layout(item: TokenStream) -> TokenStream {
    implement("KnownLayout", item)
}

#[proc_macro_derive(Immutable)]
pub fn immutable(item: TokenStream) -> TokenStream {
    implement("Immutable", item)
}
