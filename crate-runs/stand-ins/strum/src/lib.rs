//! Stand-in for the crate strum: the derive `FromRepr` for enums whose cases have no fields, and a `Display` that gives
//! nothing, since only log features show a case by its name.
use proc_macro::{TokenStream, TokenTree};

#[proc_macro_derive(Display)]
pub fn display(_: TokenStream) -> TokenStream {
    TokenStream::new()
}

/// `from_repr(number)`: the case of that number, if there is one.
#[proc_macro_derive(FromRepr)]
pub fn from_repr(input: TokenStream) -> TokenStream {
    let tokens: Vec<TokenTree> = input.into_iter().collect();
    let number = representation(&tokens).expect("#[repr(..)]");
    let place = tokens.iter().position(|token| token.to_string() == "enum").expect("an enum");
    let name = &tokens[place + 1];
    let TokenTree::Group(body) = &tokens[place + 2] else { panic!("an enum without generics") };
    let arms: String = cases(body.stream())
        .iter()
        .map(|case| format!("if number == {name}::{case} as {number} {{ return Some({name}::{case}); }}"))
        .collect();
    let function =
        format!("pub(crate) const fn from_repr(number: {number}) -> Option<{name}> {{ {arms} None }}");
    format!("#[allow(dead_code)] impl {name} {{ {function} }}").parse().expect("Rust")
}

/// The type in `#[repr(..)]`.
fn representation(tokens: &[TokenTree]) -> Option<String> {
    tokens.iter().find_map(|token| {
        let TokenTree::Group(attribute) = token else { return None };
        let mut words = attribute.stream().into_iter();
        match (words.next()?.to_string().as_str(), words.next()?) {
            ("repr", TokenTree::Group(inner)) => Some(inner.stream().to_string()),
            _ => None,
        }
    })
}

/// The names of the cases: the first word of each part between commas.
fn cases(body: TokenStream) -> Vec<String> {
    let mut names = Vec::new();
    let mut begins = true;
    for token in body {
        match token {
            TokenTree::Punct(mark) if mark.as_char() == ',' => begins = true,
            TokenTree::Ident(word) if begins => {
                names.push(word.to_string());
                begins = false;
            }
            _ => {}
        }
    }
    names
}
