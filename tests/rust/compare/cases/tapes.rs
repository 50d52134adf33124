// Cases for the tape: those for evaluating, trees of a size about 512, trees that fill the stack, and given lines with
// values for their variables.
use super::{Case, DEEPEST, FUNCTIONS, Maker, PREFIXES};
use crate::random::{Numbers, Random};
use crate::tape::STEPS;
use oracle::nodes::Node;

const VARIABLES: u16 = 3; // of the trees that are taken systematically

impl Maker<'_> {
    // A tree of this size.
    fn sized(&mut self, size: usize) -> usize {
        if size == 1 {
            return self.leaf();
        }
        if size == 2 || self.random.once_in(8) {
            let child = self.sized(size - 1);
            return self.over_one(child);
        }
        let half = (size - 1) / 2;
        let left = half - self.random.below(half);
        let (left, right) = (self.sized(left), self.sized(size - 1 - left));
        let operator = self.infix_operator();
        self.push(Node::Infix(operator, left, right))
    }

    fn over_one(&mut self, child: usize) -> usize {
        let is_function = self.random.below(100) < self.functions;
        let node = if is_function {
            Node::Function(self.random.pick(&FUNCTIONS), child)
        } else {
            Node::Prefix(self.random.pick(&PREFIXES), child)
        };
        self.push(node)
    }

    // Each line has the line before on its right: the stack holds as many values as the tree is deep.
    fn to_the_right(&mut self, depth: usize) {
        let mut top = self.leaf();
        while self.depth[top] < depth {
            let (left, operator) = (self.leaf(), self.infix_operator());
            top = self.push(Node::Infix(operator, left, top));
        }
    }
}

// A case for compiling and playing.
pub fn to_compile(random: &mut Random) -> Case {
    let mut maker = Maker::new(random);
    match maker.random.below(40) {
        0 => {
            let size = STEPS + maker.random.below(5) - 2;
            maker.sized(size);
        }
        1 => {
            let size = maker.random.from(60, STEPS);
            maker.sized(size);
        }
        2 => {
            let depth = DEEPEST - maker.random.pick(&[0, 0, 0, 1, 2, 30]);
            maker.to_the_right(depth);
        }
        _ => maker.shape(),
    }
    maker.bound()
}

// These lines, with values for most of their variables.
pub fn bound(random: &mut Random, nodes: &[Node]) -> Case {
    let numbers = random.pick(&[Numbers::Plane, Numbers::Line, Numbers::Wild, Numbers::Few]);
    let mut variables = vec![];
    for v in 0..VARIABLES {
        if !random.once_in(8) {
            variables.push((v, random.complex(numbers)));
        }
    }
    Case { nodes: nodes.to_vec(), swaps: vec![], variables, cells: vec![] }
}
