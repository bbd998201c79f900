//! `#[derive(Error)]` for an enum whose variants each carry `#[error("..")]`: `Display` by those
//! texts, and `std::error::Error`. A text names the variant's fields, or `0` for a single unnamed
//! one.

use proc_macro::{Delimiter, Group, TokenStream, TokenTree};

#[proc_macro_derive(Error, attributes(error))]
pub fn derive_error(item: TokenStream) -> TokenStream {
    let tokens: Vec<TokenTree> = item.into_iter().collect();
    let at = tokens
        .iter()
        .position(|t| t.to_string() == "enum")
        .expect("derive(Error): an enum");
    let name = tokens[at + 1].to_string();
    let TokenTree::Group(body) = &tokens[at + 2] else {
        panic!("derive(Error): an enum without generics");
    };
    let arms: String = variants(body).iter().map(|v| arm(&name, v)).collect();
    format!(
        "impl std::fmt::Display for {name} {{
            fn fmt(&self, f: &mut std::fmt::Formatter<'_>) -> std::fmt::Result {{
                match self {{ {arms} }}
            }}
        }}
        impl std::error::Error for {name} {{}}"
    )
    .parse()
    .expect("derive(Error): the generated code parses")
}

/// The enum's variants, each as its tokens, without the commas between them.
fn variants(body: &Group) -> Vec<Vec<TokenTree>> {
    let tokens: Vec<TokenTree> = body.stream().into_iter().collect();
    tokens
        .split(|t| matches!(t, TokenTree::Punct(p) if p.as_char() == ','))
        .filter(|v| !v.is_empty())
        .map(<[TokenTree]>::to_vec)
        .collect()
}

/// The arm of `match self` for one variant: `# [error("text")] Name fields`.
fn arm(name: &str, variant: &[TokenTree]) -> String {
    let [
        TokenTree::Punct(_),
        TokenTree::Group(attribute),
        TokenTree::Ident(case),
        fields @ ..,
    ] = variant
    else {
        panic!("derive(Error): a variant with one attribute");
    };
    let text = error_text(attribute);
    let fields = match fields {
        [TokenTree::Group(g)] => Some(g),
        _ => None,
    };
    match fields.map(|g| (g.delimiter(), g)) {
        None => format!("{name}::{case} => write!(f, {text}),"),
        Some((Delimiter::Parenthesis, _)) => {
            format!("{name}::{case}(field) => write!(f, {text}, field),")
        }
        Some((_, g)) => {
            let names: Vec<String> = g
                .stream()
                .to_string()
                .split(',')
                .filter_map(|field| field.split(':').next().map(|n| n.trim().to_string()))
                .collect();
            format!(
                "{name}::{case} {{ {} }} => write!(f, {text}),",
                names.join(", ")
            )
        }
    }
}

/// The string literal of `[error("text")]`.
fn error_text(attribute: &Group) -> String {
    let inner: Vec<TokenTree> = attribute.stream().into_iter().collect();
    match inner.as_slice() {
        [TokenTree::Ident(word), TokenTree::Group(text)] if word.to_string() == "error" => {
            text.stream().to_string()
        }
        _ => panic!("derive(Error): #[error(\"text\")] on each variant"),
    }
}
