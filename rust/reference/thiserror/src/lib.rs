//! A stand-in for thiserror's derive, by hand over the compiler's own token trees.
//! It knows what error.rs uses: `#[error("...")]` with inline names, `#[error(transparent)]`, `#[from]`,
//! on an enum's variants (unit, one unnamed field, named fields) or on a struct with named fields.
use proc_macro::{Delimiter, TokenStream, TokenTree};
use std::fmt::Write;

struct Case {
    name: String,
    words: String,
    shape: Shape,
}
enum Shape {
    Unit,
    One { ty: String, from: bool },
    Named(Vec<String>),
}

/// Takes the attributes at the front; returns the word of `#[error(..)]`, and whether `#[from]` stood there.
fn attributes(t: &mut std::iter::Peekable<proc_macro::token_stream::IntoIter>) -> (String, bool) {
    let (mut words, mut from) = (String::new(), false);
    while matches!(t.peek(), Some(TokenTree::Punct(p)) if p.as_char() == '#') {
        t.next();
        let Some(TokenTree::Group(g)) = t.next() else {
            panic!("an attribute without brackets")
        };
        let mut inner = g.stream().into_iter();
        match inner.next() {
            Some(TokenTree::Ident(i)) if i.to_string() == "error" => {
                let Some(TokenTree::Group(g)) = inner.next() else {
                    panic!("#[error] without words")
                };
                words = g.stream().to_string();
            }
            Some(TokenTree::Ident(i)) if i.to_string() == "from" => from = true,
            _ => {}
        }
    }
    (words, from)
}

fn named(stream: TokenStream) -> Vec<String> {
    let mut names = Vec::new();
    let mut t = stream.into_iter().peekable();
    while t.peek().is_some() {
        attributes(&mut t);
        let mut last = String::new();
        for token in t.by_ref() {
            match token {
                TokenTree::Ident(i) => last = i.to_string(),
                TokenTree::Punct(p) if p.as_char() == ':' => break,
                _ => {} // a visibility's brackets
            }
        }
        names.push(last);
        let mut depth = 0;
        for token in t.by_ref() {
            if let TokenTree::Punct(p) = token {
                match p.as_char() {
                    '<' => depth += 1,
                    '>' => depth -= 1,
                    ',' if depth == 0 => break,
                    _ => {}
                }
            }
        }
    }
    names
}

fn shape(group: Option<proc_macro::Group>) -> Shape {
    match group {
        None => Shape::Unit,
        Some(g) if g.delimiter() == Delimiter::Brace => Shape::Named(named(g.stream())),
        Some(g) => {
            let mut t = g.stream().into_iter().peekable();
            let (_, from) = attributes(&mut t);
            Shape::One {
                ty: t.collect::<TokenStream>().to_string(),
                from,
            }
        }
    }
}

#[proc_macro_derive(Error, attributes(error, from))]
pub fn derive(input: TokenStream) -> TokenStream {
    let mut t = input.into_iter().peekable();
    let (outer, _) = attributes(&mut t);
    let (mut kind, mut name, mut body) = (String::new(), String::new(), None);
    for token in t {
        match token {
            TokenTree::Ident(i)
                if kind.is_empty() && matches!(i.to_string().as_str(), "enum" | "struct") =>
            {
                kind = i.to_string()
            }
            TokenTree::Ident(i) if !kind.is_empty() && name.is_empty() => name = i.to_string(),
            TokenTree::Group(g) if !name.is_empty() => body = Some(g),
            _ => {}
        }
    }
    let mut cases = Vec::new();
    if kind == "struct" {
        cases.push(Case {
            name: name.clone(),
            words: outer,
            shape: shape(body),
        });
    } else {
        let mut t = body
            .expect("an enum has a body")
            .stream()
            .into_iter()
            .peekable();
        while t.peek().is_some() {
            let (words, _) = attributes(&mut t);
            let Some(TokenTree::Ident(i)) = t.next() else {
                panic!("a variant has a name")
            };
            let mut group = None;
            for token in t.by_ref() {
                match token {
                    TokenTree::Group(g) => group = Some(g),
                    TokenTree::Punct(p) if p.as_char() == ',' => break,
                    _ => {}
                }
            }
            cases.push(Case {
                name: format!("{name}::{i}"),
                words,
                shape: shape(group),
            });
        }
    }
    let (mut display, mut source, mut froms) = (String::new(), String::new(), String::new());
    for c in &cases {
        let pattern = match &c.shape {
            Shape::Unit => c.name.clone(),
            Shape::One { .. } => format!("{}(inner)", c.name),
            Shape::Named(f) => format!("{} {{ {} }}", c.name, f.join(", ")),
        };
        if c.words == "transparent" {
            write!(display, "{pattern} => ::core::fmt::Display::fmt(inner, f),").unwrap();
            write!(source, "{pattern} => ::std::error::Error::source(inner),").unwrap();
        } else {
            write!(display, "{pattern} => ::core::write!(f, {}),", c.words).unwrap();
            let from = matches!(c.shape, Shape::One { from: true, .. });
            write!(
                source,
                "{pattern} => {},",
                if from {
                    "::core::option::Option::Some(inner)"
                } else {
                    "::core::option::Option::None"
                }
            )
            .unwrap();
        }
        if let Shape::One { ty, from: true } = &c.shape {
            write!(froms, "impl ::core::convert::From<{ty}> for {name} {{ fn from(inner: {ty}) -> Self {{ {}(inner) }} }}", c.name).unwrap();
        }
    }
    format!(
        "#[allow(unused_variables)] impl ::core::fmt::Display for {name} {{ fn fmt(&self, f: &mut ::core::fmt::Formatter<'_>) -> ::core::fmt::Result {{ match self {{ {display} }} }} }}
         #[allow(unused_variables)] impl ::std::error::Error for {name} {{ fn source(&self) -> ::core::option::Option<&(dyn ::std::error::Error + 'static)> {{ match self {{ {source} }} }} }}
         {froms}"
    )
    .parse()
    .unwrap()
}
