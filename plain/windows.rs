//! The windows of the wall panel once more, in exact parts, with no cleverness: shortest and longest paths over all demands of
//! a plan, there and back over their list until nothing changes. terminal/compare.rs holds the answers of the library and of
//! plain.rs against it.

use crate::plain::{self, Refusal, Start, Window};

/// Later than every moment that something bounds.
const FAR: i64 = 1 << 40;

/// The parts to a tick of k rounds from log-in, and the window of each step in parts.
pub fn spans(bytes: &[u8], k: u64) -> Result<(u64, Vec<Window<i64>>), Refusal> {
    let counted = plain::read(bytes)?;
    // As many rounds as are planned at all.
    let rounds = k.min(plain::TOTAL as u64) as usize;
    let of_round = counted.steps + 2 * counted.guards;
    let mut row = vec![0; 4 * (rounds * of_round + 2 * plain::CLOCKS)];
    let number = plain::demands(bytes, Start::LogIn, k, &mut row)?;
    let total = rounds * counted.steps;
    let parts = total + counted.clocks + 1;
    // From, to, and the most parts from the one to the other.
    let demands: Vec<(usize, usize, i64)> = row
        .chunks_exact(4)
        .take(number)
        .map(|d| (d[0] as usize, d[1] as usize, d[2] * parts as i64 - d[3]))
        .collect();
    // Turned round, the order of the steps leads from moment 0 to every step, and so to every cycle.
    let first = paths(
        parts,
        demands.iter().map(|&(from, to, most)| (to, from, most)),
    );
    let last = first
        .as_ref()
        .and_then(|_| paths(parts, demands.iter().copied()));
    let spans = match (first, last) {
        (Some(first), Some(last)) => (1..=total)
            .map(|i| match last[i] {
                FAR => Window::Open(-first[i]),
                last => Window::Closed(-first[i], last),
            })
            .collect(),
        _ => vec![Window::Absent; total],
    };
    Ok((parts as u64, spans))
}

/// The shortest paths from moment 0, or `FAR`; None where a cycle that it leads to is below 0. Without one, each turn settles at
/// least one more moment of a shortest path.
fn paths(
    moments: usize,
    demands: impl DoubleEndedIterator<Item = (usize, usize, i64)> + Clone,
) -> Option<Vec<i64>> {
    let mut path = vec![FAR; moments];
    path[0] = 0;
    for _ in 0..=moments {
        let mut changed = false;
        for (from, to, most) in demands.clone().chain(demands.clone().rev()) {
            if path[from] != FAR && path[from] + most < path[to] {
                path[to] = path[from] + most;
                changed = true;
            }
        }
        if path[0] < 0 {
            return None;
        }
        if !changed {
            return Some(path);
        }
    }
    None
}
