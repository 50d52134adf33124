// Whether the Rust simplifies a case to what is written, with as many calls, and asks for the same function values in the
// same order.
use crate::model::Model;
use crate::rust::Rust;
use crate::texts::{identical, in_order, listing, read_back};
use oracle::nodes::trees;

pub enum Verdict {
    Same,
    SameIfApart, // the same, but for the sign of a zero where the Rust makes equal nodes one
    OtherZero,   // the same but for the sign of a zero
    NotCompared(&'static str),
    Differs(String),
}

// Which corner keeps a run from being compared.
pub fn corner(model: &Model) -> Option<&'static str> {
    if model.asks.list.iter().any(|a| a.is_corner()) {
        return Some("corner 1 or 3");
    }
    model.at_the_border.then_some("corner 2")
}

pub fn verdict(model: &Model, written: &[u8], rust: &Rust, limit: u64) -> Verdict {
    if let Some(corner) = corner(model) {
        return Verdict::NotCompared(corner);
    }
    let (tree, watched) = rust.simplified(limit);
    let nodes = std::str::from_utf8(written).ok().and_then(read_back);
    let Some(root) = nodes.and_then(|nodes| trees(&nodes).pop()) else {
        return Verdict::Differs("what was written is no listing".into());
    };
    let (shared, shared_watched) = rust.simplified_shared(limit);
    if shared != tree || shared_watched.calls != watched.calls {
        return Verdict::Differs("the Rust does otherwise where it makes equal nodes one".into());
    }
    if *root == tree && model.calls == watched.calls && model.asks.list == watched.asks.list {
        return match (identical(&root, &tree), identical(&tree, &shared)) {
            (true, true) => Verdict::Same,
            (true, false) => Verdict::SameIfApart,
            _ => Verdict::OtherZero,
        };
    }
    let (calls, asked) = ((model.calls, watched.calls), (&model.asks.list, &watched.asks.list));
    let (mine, theirs) = (String::from_utf8_lossy(written), listing(&in_order(&tree), &[]));
    Verdict::Differs(format!("calls {calls:?}, asked {asked:x?}\nwritten\n{mine}the Rust\n{theirs}"))
}
