//! The pool as text: a line for each inner place, route and broken link, in brackets its place, and behind a ! what is damaged.
use crate::pool::{Node, Pool};
use crate::route::Route;

pub fn draw(pool: &Pool) -> String {
    let head = pool.head.iter().cloned();
    let faults = pool.faults.iter().map(|fault| format!("! {fault}"));
    let tree = pool.root.iter().flat_map(|root| [vec![String::new()], lines(root)].concat());
    head.chain(faults).chain(tree).map(|line| line + "\n").collect()
}

fn lines(node: &Node) -> Vec<String> {
    match node {
        Node::Inner { place, bit, sides, faults } => {
            let own = format!("bit {bit} (inner {place}){}", marked(faults));
            let [left, right] = [0, 1].map(|side| lines(&sides[side]));
            [vec![own], hung(left, "├─0─ ", "│    "), hung(right, "└─1─ ", "     ")].concat()
        }
        Node::Leaf(routes) => routes.iter().map(route_line).collect(),
        Node::Broken(fault) => vec![format!("! {fault}")],
    }
}

fn route_line(route: &Route) -> String {
    format!("{} {} {} (route {}){}", route.prefix(), route.hop, route.origin, route.place, marked(&route.faults))
}

fn marked(faults: &[String]) -> String {
    match faults {
        [] => String::new(),
        _ => format!(" ! {}", faults.join("; ")),
    }
}

/// The lines of a side, the first behind its branch and the others in line with it.
fn hung(side: Vec<String>, first: &str, others: &str) -> Vec<String> {
    let start = |i: usize| if i == 0 { first } else { others };
    side.into_iter().enumerate().map(|(i, line)| format!("{}{line}", start(i))).collect()
}
