//! Stand-in for the derive of save_state: `Savable` with its do-nothing methods,
//! for a struct or enum without type parameters. The attribute `savable(..)` is ignored.

extern crate proc_macro;

use proc_macro::{TokenStream, TokenTree};

#[proc_macro_derive(Savable, attributes(savable))]
pub fn derive_savable(item: TokenStream) -> TokenStream {
    let mut after_keyword = false;
    for token in item {
        if let TokenTree::Ident(word) = token {
            let word = word.to_string();
            if after_keyword {
                return format!("impl ::save_state::Savable for {} {{}}", word)
                    .parse()
                    .unwrap();
            }
            after_keyword = word == "struct" || word == "enum";
        }
    }
    TokenStream::new()
}
