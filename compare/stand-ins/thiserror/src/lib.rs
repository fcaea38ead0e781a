// SPDX-License-Identifier: Apache-2.0 AND BSD-3-Clause
//! Stand-in for thiserror: `#[derive(Error)]` for an enum without parameters, shown by its Debug form.

use proc_macro::{TokenStream, TokenTree};

#[proc_macro_derive(Error, attributes(error, from, source))]
pub fn error(input: TokenStream) -> TokenStream {
    let mut words = input.into_iter().filter_map(|token| match token {
        TokenTree::Ident(word) => Some(word.to_string()),
        _ => None,
    });
    words.find(|word| word == "enum").expect("an enum");
    let name = words.next().expect("its name");
    format!(
        "impl std::fmt::Display for {name} {{
            fn fmt(&self, f: &mut std::fmt::Formatter<'_>) -> std::fmt::Result {{
                write!(f, \"{{self:?}}\")
            }}
        }}
        impl std::error::Error for {name} {{}}"
    )
    .parse()
    .expect("two impls")
}
