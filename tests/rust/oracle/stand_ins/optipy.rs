// Stands in for the crate optipy: takes the attribute pyo3 away from the fields and variants of an item.
use proc_macro::{Group, TokenStream, TokenTree};

fn is_pyo3(tree: &TokenTree) -> bool {
    let TokenTree::Group(group) = tree else { return false };
    matches!(group.stream().into_iter().next(), Some(TokenTree::Ident(name)) if name.to_string() == "pyo3")
}

fn stripped(stream: TokenStream) -> TokenStream {
    let mut kept: Vec<TokenTree> = Vec::new();
    for tree in stream {
        let after_hash = matches!(kept.last(), Some(TokenTree::Punct(p)) if p.as_char() == '#');
        if after_hash && is_pyo3(&tree) {
            kept.pop();
            continue;
        }
        kept.push(match tree {
            TokenTree::Group(g) => TokenTree::Group(Group::new(g.delimiter(), stripped(g.stream()))),
            other => other,
        });
    }
    kept.into_iter().collect()
}

#[proc_macro_attribute]
pub fn strip_pyo3(_: TokenStream, item: TokenStream) -> TokenStream {
    stripped(item)
}
