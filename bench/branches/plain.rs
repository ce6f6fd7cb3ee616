//! The counterpart over vectors: each branch is led up from its scan through a stack of what stands above it.

use std::time::Instant;

const ROUNDS: usize = 3;

enum Node {
    Scan,
    Filter(u32),
    Union(Vec<u32>),
}

fn nodes_of(levels: usize) -> Vec<Node> {
    let mut nodes = vec![Node::Scan];
    for _ in 0..levels {
        let last = nodes.len() as u32 - 1;
        nodes.push(Node::Filter(last));
        nodes.push(Node::Scan);
        nodes.push(Node::Filter(last + 2));
        nodes.push(Node::Union(vec![last + 1, last + 3]));
    }
    nodes
}

struct Branch {
    source: u32,
    operators: Vec<u32>,
}

fn visit(nodes: &[Node], above: &mut Vec<u32>, branches: &mut Vec<Branch>, n: u32) {
    match &nodes[n as usize] {
        Node::Scan => {
            let mut operators = Vec::new();
            for node in above.iter().rev() {
                operators.push(*node);
            }
            branches.push(Branch {
                source: n,
                operators,
            });
        }
        Node::Filter(input) => {
            above.push(n);
            visit(nodes, above, branches, *input);
            above.pop();
        }
        Node::Union(inputs) => {
            above.push(n);
            for input in inputs {
                visit(nodes, above, branches, *input);
            }
            above.pop();
        }
    }
}

fn cut(nodes: &[Node]) -> Vec<Branch> {
    let mut branches = Vec::new();
    visit(nodes, &mut Vec::new(), &mut branches, nodes.len() as u32 - 1);
    branches
}

fn word(node: &Node) -> &'static str {
    match node {
        Node::Scan => "df",
        Node::Filter(_) => "filter",
        Node::Union(_) => "union",
    }
}

fn text(nodes: &[Node], branch: &Branch) -> String {
    let mut text = String::from(word(&nodes[branch.source as usize]));
    for n in &branch.operators {
        text.push_str(" -> ");
        text.push_str(word(&nodes[*n as usize]));
    }
    text.push_str(" -> ordered");
    text
}

fn explain(nodes: &[Node]) -> Vec<String> {
    let branches = cut(nodes);
    branches.iter().map(|branch| text(nodes, branch)).collect()
}

fn time_plan(levels: usize) {
    let nodes = nodes_of(levels);
    let size = nodes.len();
    let start = Instant::now();
    let branches = cut(&nodes);
    let time = start.elapsed().as_nanos();
    let operators: usize = branches.iter().map(|branch| branch.operators.len()).sum();
    println!("cut-{size} {time} {operators}");
    let start = Instant::now();
    let texts = explain(&nodes);
    let time = start.elapsed().as_nanos();
    let bytes: usize = texts.iter().map(String::len).sum();
    println!("explain-{size} {time} {bytes}");
}

fn main() {
    for _ in 0..ROUNDS {
        for levels in [127, 255, 511, 1023] {
            time_plan(levels);
        }
    }
}
