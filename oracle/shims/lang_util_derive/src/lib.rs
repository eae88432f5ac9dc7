//! The derive macro that document 001 imports. It takes the helper attribute `lang_util`, so that 001 compiles as it stands.
//!
//! Upstream it writes the code that shows a tree for debugging. The printer (000) never calls that code, so here the derived
//! implementation is empty.

use proc_macro::{TokenStream, TokenTree};

/// Derives an empty `lang_util::NodeContentDisplay`.
#[proc_macro_derive(NodeContentDisplay, attributes(lang_util))]
pub fn node_content_display(item: TokenStream) -> TokenStream {
    let code = match declared_name(item) {
        Some(name) => format!("impl ::lang_util::NodeContentDisplay for {name} {{}}"),
        None => r#"::core::compile_error!("NodeContentDisplay: a struct or an enum is expected");"#.to_owned(),
    };
    code.parse().unwrap_or_default()
}

/// The name that stands behind `struct` or `enum`. (001 has no generic node, so a name is enough.)
fn declared_name(item: TokenStream) -> Option<String> {
    let mut words = item.into_iter().filter_map(|token| match token {
        TokenTree::Ident(word) => Some(word.to_string()),
        _ => None,
    });
    words.find(|word| word == "struct" || word == "enum")?;
    words.next()
}
