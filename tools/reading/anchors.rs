//! Elements that hold two sequences together, found as patience diff finds them.

use std::collections::HashMap;
use std::hash::Hash;

/// Where each element stands.
type Places<'a, T> = HashMap<&'a T, Vec<usize>>;

fn places<'a, T: Eq + Hash>(elements: &[&'a T]) -> Places<'a, T> {
    let mut places = Places::new();
    for (k, &element) in elements.iter().enumerate() {
        places.entry(element).or_default().push(k);
    }
    places
}

/// The longest chain of pairs in which the second rises too; the first does already.
fn longest_rising(pairs: &[(usize, usize)]) -> Vec<(usize, usize)> {
    // of the chains of each length, the last pair of the one that ends lowest
    let mut lowest: Vec<usize> = Vec::new();
    // the pair before each in its chain
    let mut before = Vec::new();
    for (k, pair) in pairs.iter().enumerate() {
        let shorter = lowest.partition_point(|&last| pairs[last].1 < pair.1);
        before.push(shorter.checked_sub(1).map(|length| lowest[length]));
        match lowest.get_mut(shorter) {
            Some(last) => *last = k,
            None => lowest.push(k),
        }
    }
    let mut chain: Vec<_> = std::iter::successors(lowest.last().copied(), |&k| before[k]).map(|k| pairs[k]).collect();
    chain.reverse();
    chain
}

/// The places of elements that stand as often in each, at most so often, so far as both have them in the same order.
fn common<T: Eq + Hash>(in_a: &Places<T>, in_b: &Places<T>, most: usize) -> Vec<(usize, usize)> {
    let as_often = in_a.iter().filter_map(|(element, a)| {
        let b = in_b.get(element)?;
        (a.len() == b.len() && a.len() <= most).then_some((a, b))
    });
    let mut pairs: Vec<_> = as_often.flat_map(|(a, b)| a.iter().copied().zip(b.iter().copied())).collect();
    pairs.sort_unstable();
    longest_rising(&pairs)
}

/// The places of the elements that hold both together: of those that stand once in each; where there are none, of those
/// that stand as often in each.
pub fn anchors<T: Eq + Hash>(a: &[&T], b: &[&T]) -> Vec<(usize, usize)> {
    let (in_a, in_b) = (places(a), places(b));
    let once = common(&in_a, &in_b, 1);
    if once.is_empty() {
        common(&in_a, &in_b, usize::MAX)
    } else {
        once
    }
}
