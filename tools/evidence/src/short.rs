//! A scenario with fewer lines that means the same: edges that are whole bytes, 100 µs a bit, become lines `bytes`.

use reference::grammar::{line, Line, Statement, LATEST};
use reference::receiver::packet_length;

const BIT: u64 = 100;

/// The scenario, a line `bytes` for each packet where the edges allow it. Other lines stay as they are.
pub fn short(scenario: &str) -> String {
    let mut text = String::new();
    let mut edges: Vec<(u64, u8, &str)> = Vec::new();
    for one in scenario.lines() {
        if let Some((time, level)) = plain_edge(one) {
            edges.push((time, level, one));
            continue;
        }
        write_edges(&edges, &mut text);
        edges.clear();
        text.push_str(one);
        text.push('\n');
    }
    write_edges(&edges, &mut text);
    text
}

/// A good edge with no comment.
fn plain_edge(one: &str) -> Option<(u64, u8)> {
    match line(one.as_bytes(), true) {
        Line::Statement(Statement::Edge(time, level)) if level < 2 && !one.contains('#') => Some((time, level)),
        _ => None,
    }
}

/// Edges in a row: whole bytes first, as long as the times allow it, and then what is left.
fn write_edges(edges: &[(u64, u8, &str)], text: &mut String) {
    let mut at = 0;
    while at < edges.len() {
        let bytes = leading_bytes(&edges[at..]);
        if bytes.is_empty() {
            text.push_str(edges[at].2);
            text.push('\n');
            at += 1;
            continue;
        }
        let length = (packet_length(bytes[0]) as usize).min(bytes.len());
        let words: String = bytes[..length].iter().map(|byte| format!(" {byte:02X}")).collect();
        text.push_str(&format!("bytes {}{words}\n", edges[at].0));
        at += 8 * length;
    }
}

/// The whole bytes that these edges begin with.
fn leading_bytes(edges: &[(u64, u8, &str)]) -> Vec<u8> {
    let first = edges[0].0;
    let even = edges.iter().zip(0..).take_while(|((time, _, _), n)| Some(*time) == first.checked_add(BIT * n)).count();
    if first > LATEST {
        return Vec::new();
    }
    let whole = edges[..even].chunks_exact(8);
    whole.map(|bits| bits.iter().zip(0..).map(|((_, level, _), place)| level << place).sum()).collect()
}

#[cfg(test)]
mod tests {
    use super::*;

    #[test]
    fn whole_bytes_become_one_line() {
        let edges: String = (0..20).map(|n| format!("{} {}\n", 100 * n, n % 2)).collect();
        assert_eq!(short(&edges), "bytes 0 AA AA\n1600 0\n1700 1\n1800 0\n1900 1\n");
        assert_eq!(short("0 1\ncut\n5 1 # said\n"), "0 1\ncut\n5 1 # said\n");
        assert_eq!(short(&edges.replace("\n800 0", "\n801 0")).lines().count(), 6);
    }
}
