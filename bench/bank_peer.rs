//! The peer of `bench/bank`: the same terms in a map of the standard library, from a term to its place.
use std::collections::HashMap;
use std::time::Instant;

#[derive(Clone, Copy, PartialEq, Eq, Hash)]
struct Word {
    width: u8,
    bits: u64,
}

#[derive(Clone, Copy, PartialEq, Eq, Hash)]
#[allow(dead_code)]
enum Node {
    Input { number: u64, width: u8 },
    Const(Word),
    Bin { op: u8, a: usize, b: usize },
    Not { a: usize },
    Resize { a: usize, width: u8 },
    Pick { test: usize, yes: usize, no: usize },
}

#[derive(Default)]
struct Bank {
    places: HashMap<Node, usize>,
    nodes: Vec<Node>,
}

impl Bank {
    fn make(&mut self, node: Node) -> usize {
        let nodes = &mut self.nodes;
        *self.places.entry(node).or_insert_with(|| {
            nodes.push(node);
            nodes.len() - 1
        })
    }
}

fn main() {
    let count: u64 = std::env::args().nth(1).unwrap().parse().unwrap();
    let mut bank = Bank::default();
    let start = Instant::now();
    for bits in 0..count {
        for _ in 0..2 {
            let constant = bank.make(Node::Const(Word { width: 64, bits }));
            bank.make(Node::Not { a: constant });
        }
    }
    eprintln!("{} ns", start.elapsed().as_nanos());
    println!("{} terms", bank.nodes.len());
}
