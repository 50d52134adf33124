// Stands in for the crate thiserror, for enums: an error is shown as Debug shows it, and `from` makes a conversion.
use proc_macro::{Delimiter, Group, TokenStream, TokenTree};

// The name of the enum and its variants.
fn parts(item: TokenStream) -> (String, Group) {
    let trees: Vec<TokenTree> = item.into_iter().collect();
    let at = trees.iter().position(|t| t.to_string() == "enum").expect("an enum");
    let body = trees[at..].iter().find_map(|t| match t {
        TokenTree::Group(g) if g.delimiter() == Delimiter::Brace => Some(g.clone()),
        _ => None,
    });
    (trees[at + 1].to_string(), body.expect("variants"))
}

// The type after `#[from]` in a variant's fields.
fn source(fields: &Group) -> Option<String> {
    let trees: Vec<TokenTree> = fields.stream().into_iter().collect();
    let marked = trees.len() > 2 && trees[0].to_string() == "#" && trees[1].to_string() == "[from]";
    marked.then(|| trees[2..].iter().cloned().collect::<TokenStream>().to_string())
}

fn conversions(name: &str, body: &Group) -> String {
    let mut code = String::new();
    let mut variant = String::new();
    for tree in body.stream() {
        match &tree {
            TokenTree::Ident(ident) => variant = ident.to_string(),
            TokenTree::Group(g) if g.delimiter() == Delimiter::Parenthesis => {
                if let Some(t) = source(g) {
                    code += &format!(
                        "impl From<{t}> for {name} {{ fn from(source: {t}) -> Self {{ Self::{variant}(source) }} }}"
                    );
                }
            }
            _ => {}
        }
    }
    code
}

#[proc_macro_derive(Error, attributes(error, from))]
pub fn derive_error(item: TokenStream) -> TokenStream {
    let (name, body) = parts(item);
    let shown = format!(
        "impl std::fmt::Display for {name} {{
            fn fmt(&self, f: &mut std::fmt::Formatter) -> std::fmt::Result {{ std::fmt::Debug::fmt(self, f) }}
        }}
        impl std::error::Error for {name} {{}}"
    );
    (shown + &conversions(&name, &body)).parse().expect("code")
}
