//! Stands in for `thiserror`: Display is Debug (no check reads an error's text), and `Variant(#[from] Type)` gives From.
use proc_macro::{Delimiter, TokenStream, TokenTree};

#[proc_macro_derive(Error, attributes(error, from))]
pub fn error(item: TokenStream) -> TokenStream {
    let mut tokens = item.into_iter();
    let name = loop {
        match tokens.next() {
            Some(TokenTree::Ident(word)) if word.to_string() == "enum" => break tokens.next().expect("a name").to_string(),
            Some(_) => {}
            None => panic!("derive(Error) is for enums here"),
        }
    };
    let Some(TokenTree::Group(body)) = tokens.next() else { panic!("an enum without a body") };
    let mut code = format!(
        "impl ::std::fmt::Display for {name} {{ fn fmt(&self, f: &mut ::std::fmt::Formatter<'_>) -> ::std::fmt::Result {{ ::std::fmt::Debug::fmt(self, f) }} }}
         impl ::std::error::Error for {name} {{}}"
    );
    let mut variant = String::new();
    for token in body.stream() {
        match token {
            TokenTree::Ident(word) => variant = word.to_string(),
            TokenTree::Group(fields) if fields.delimiter() == Delimiter::Parenthesis => {
                let text = fields.stream().to_string();
                if let Some(kind) = text.strip_prefix("#[from]") {
                    code += &format!("impl From<{kind}> for {name} {{ fn from(cause: {kind}) -> Self {{ {name}::{variant}(cause) }} }}");
                }
            }
            _ => {}
        }
    }
    code.parse().expect("the implementations parse")
}
