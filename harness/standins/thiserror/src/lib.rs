//! Stand-in for `thiserror`: derives `Display` and `std::error::Error` for an
//! enum whose variants each carry an `#[error("..")]` text.

use proc_macro::{Delimiter, Group, TokenStream, TokenTree};

#[proc_macro_derive(Error, attributes(error))]
pub fn error(item: TokenStream) -> TokenStream {
    let tokens: Vec<TokenTree> = item.into_iter().collect();
    let name = name_after_enum(&tokens);
    let arms = match tokens.last() {
        Some(TokenTree::Group(body)) => arms(body),
        _ => panic!("an enum with a body is expected"),
    };
    format!(
        "impl ::std::fmt::Display for {name} {{
            fn fmt(&self, f: &mut ::std::fmt::Formatter<'_>) -> ::std::fmt::Result {{
                match self {{ {arms} }}
            }}
        }}
        impl ::std::error::Error for {name} {{}}"
    )
    .parse()
    .expect("the generated implementation is Rust")
}

fn name_after_enum(tokens: &[TokenTree]) -> String {
    let place = tokens
        .iter()
        .position(|token| token.to_string() == "enum")
        .expect("an enum is expected");
    tokens[place + 1].to_string()
}

/// One match arm for each variant: its last `#[error("..")]` text, written
/// with the variant's fields as arguments.
fn arms(body: &Group) -> String {
    let mut arms = String::new();
    let mut text = String::new();
    let mut tokens = body.stream().into_iter().peekable();
    while let Some(token) = tokens.next() {
        match token {
            TokenTree::Group(attribute) if attribute.delimiter() == Delimiter::Bracket => {
                text = error_text(&attribute).unwrap_or(text);
            }
            TokenTree::Ident(variant) => {
                let fields = match tokens.peek() {
                    Some(TokenTree::Group(fields)) => Some(fields.clone()),
                    _ => None,
                };
                arms += &arm(&variant.to_string(), &text, fields.as_ref());
            }
            _ => {}
        }
    }
    arms
}

/// The literal of an `error("..")` attribute; other attributes have none.
fn error_text(attribute: &Group) -> Option<String> {
    let mut tokens = attribute.stream().into_iter();
    let name = tokens.next()?;
    match tokens.next()? {
        TokenTree::Group(text) if name.to_string() == "error" => Some(text.stream().to_string()),
        _ => None,
    }
}

fn arm(variant: &str, text: &str, fields: Option<&Group>) -> String {
    match fields.map(|fields| (fields.delimiter(), fields)) {
        Some((Delimiter::Parenthesis, _)) => {
            format!("Self::{variant}(field) => write!(f, {text}, field),")
        }
        Some((_, fields)) => {
            let names = field_names(fields);
            format!("Self::{variant} {{ {names} }} => write!(f, {text}),")
        }
        None => format!("Self::{variant} => write!(f, {text}),"),
    }
}

/// The names before each colon, separated by commas.
fn field_names(fields: &Group) -> String {
    let tokens: Vec<String> = fields
        .stream()
        .into_iter()
        .map(|token| token.to_string())
        .collect();
    let names: Vec<&str> = tokens
        .windows(2)
        .filter(|pair| pair[1] == ":")
        .map(|pair| pair[0].as_str())
        .collect();
    names.join(", ")
}
