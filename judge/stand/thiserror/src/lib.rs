//! Stand-in for thiserror: Display by way of Debug, and Error. The texts are
//! not compared.

use proc_macro::{TokenStream, TokenTree};

#[proc_macro_derive(Error, attributes(error, from, source))]
pub fn error(input: TokenStream) -> TokenStream {
    let name = enum_name(input);
    let text = format!(
        "impl std::fmt::Display for {name} {{
            fn fmt(&self, f: &mut std::fmt::Formatter<'_>) -> std::fmt::Result {{
                write!(f, \"{{self:?}}\")
            }}
        }}
        impl std::error::Error for {name} {{}}"
    );
    text.parse().unwrap()
}

fn enum_name(input: TokenStream) -> String {
    let mut after_keyword = false;
    for token in input {
        if let TokenTree::Ident(word) = token {
            if after_keyword {
                return word.to_string();
            }
            after_keyword = word.to_string() == "enum";
        }
    }
    panic!("only enums are supported");
}
