//! Table entry: "The passes also accept a lent node table of 3 to 65,535 nodes and a
//! departure"; it "gives 3, 4, 5, 14, 15 or 16".

use crate::bytes::{bad_size, float, number};
use crate::node::{Event, Kind, Node};
use crate::{passes, refuse_if, Answer, No, MOST_PLACES};

/// 4 f64 and 6 u32.
const NODE: usize = 56;

/// The departure, then as many nodes as the bytes fill.
pub fn answer(item: &[u8]) -> Answer<Vec<Node>> {
    let count = item.len().saturating_sub(8) / NODE;
    refuse_if(!(3..=MOST_PLACES).contains(&count), 3)?;
    let departure = float(item, 0);
    refuse_if(bad_size(departure), 4)?;
    let mut nodes = item[8..].chunks_exact(NODE).map(node).collect::<Answer<Vec<Node>>>()?;
    refuse_if(nodes.iter().any(|node| names_nothing(node, count)), 5)?;
    passes::run(&mut nodes, departure)?;
    Ok(nodes)
}

/// One node; row 4, "either sign", "kind unknown". "each node's time is checked, then
/// read as untimed".
fn node(b: &[u8]) -> Answer<Node> {
    refuse_if((0..4).any(|i| bad_size(float(b, 8 * i))), 4)?;
    let index = |i: usize| number(b, 32 + 4 * i);
    Ok(Node {
        to_next: float(b, 8),
        distance: float(b, 16),
        speed: float(b, 24),
        next: index(0) as usize,
        next_alt: index(1) as usize,
        prev: index(2) as usize,
        prev_alt: index(3) as usize,
        event: Event { link: index(4), kind: kind(index(5))? },
        ..Node::BLANK
    })
}

/// "Arrive 0, Clear 1, Fake 2"
fn kind(number: u32) -> Answer<Kind> {
    match number {
        0 => Ok(Kind::Arrive),
        1 => Ok(Kind::Clear),
        2 => Ok(Kind::Fake),
        _ => Err(No::Number(4)),
    }
}

/// Row 5: "index (not a table's event link) names nothing".
fn names_nothing(node: &Node, count: usize) -> bool {
    [node.next, node.next_alt, node.prev, node.prev_alt].into_iter().any(|i| i >= count)
}
