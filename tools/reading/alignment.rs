//! Two sequences beside each other: where they differ, and what stands for what there, at the least cost. The cost of a
//! pair is 0 where both are equal, and none where the one cannot stand for the other. Where the sequences are long,
//! elements that stand once in each hold them together, and costs are weighed only between those.

use crate::anchors::anchors;
use std::hash::Hash;
use std::ops::Range;

/// The cost of an element that is missing or too many.
const ALONE: usize = 10;
/// Pairs that must be equal behind a difference.
const AGREEING: usize = 3;
/// So many pairs of elements are weighed at a time: of long sequences, the first `WINDOW` elements of each.
const WEIGHED: usize = WINDOW * WINDOW;
const WINDOW: usize = 400;

/// The elements of the one and of the other between two places where they agree.
pub type Gap = (Range<usize>, Range<usize>);

/// What stands for what, by index; one that is missing or too many stands alone.
pub type Pair = (Option<usize>, Option<usize>);

/// The front of two sequences, as much as is weighed at a time.
struct Aligned<'a, T, F> {
    a: &'a [&'a T],
    b: &'a [&'a T],
    /// Whether more follows, which costs nothing.
    a_goes_on: bool,
    b_goes_on: bool,
    cost: &'a F,
}

impl<'a, T, F: Fn(&T, &T) -> Option<usize>> Aligned<'a, T, F> {
    fn front(a: &'a [&'a T], b: &'a [&'a T], cost: &'a F) -> Self {
        let most = if a.len() * b.len() <= WEIGHED { usize::MAX } else { WINDOW };
        let (m, n) = (a.len().min(most), b.len().min(most));
        Aligned { a: &a[..m], b: &b[..n], a_goes_on: m < a.len(), b_goes_on: n < b.len(), cost }
    }

    fn ends_at(&self, i: usize, j: usize) -> bool {
        let (a_ends, b_ends) = (i == self.a.len(), j == self.b.len());
        a_ends && b_ends || a_ends && self.a_goes_on || b_ends && self.b_goes_on
    }

    fn pair_cost(&self, i: usize, j: usize) -> Option<usize> {
        (self.cost)(self.a.get(i)?, self.b.get(j)?)
    }

    /// `costs[i][j]` is the least cost of what is left from i and from j on.
    fn costs(&self) -> Vec<Vec<usize>> {
        let (m, n) = (self.a.len(), self.b.len());
        let mut costs = vec![vec![0; n + 1]; m + 1];
        for (i, j) in (0..=m).rev().flat_map(|i| (0..=n).rev().map(move |j| (i, j))) {
            if !self.ends_at(i, j) {
                let without_a = (i < m).then(|| ALONE + costs[i + 1][j]);
                let without_b = (j < n).then(|| ALONE + costs[i][j + 1]);
                let with_both = self.pair_cost(i, j).map(|cost| cost + costs[i + 1][j + 1]);
                costs[i][j] = [without_a, without_b, with_both].into_iter().flatten().min().unwrap_or(0);
            }
        }
        costs
    }

    /// The pairs of least cost, in order.
    fn pairs(&self) -> Vec<Pair> {
        let costs = self.costs();
        let mut pairs = Vec::new();
        let (mut i, mut j) = (0, 0);
        while !self.ends_at(i, j) {
            let paired = self.pair_cost(i, j).is_some_and(|cost| costs[i][j] == cost + costs[i + 1][j + 1]);
            let takes_a = paired || i < self.a.len() && costs[i][j] == ALONE + costs[i + 1][j];
            let takes_b = paired || !takes_a;
            pairs.push((takes_a.then_some(i), takes_b.then_some(j)));
            (i, j) = (i + usize::from(takes_a), j + usize::from(takes_b));
        }
        pairs
    }

    fn equal(&self, pair: &Pair) -> bool {
        matches!(pair, (Some(i), Some(j)) if self.pair_cost(*i, *j) == Some(0))
    }

    /// How many elements of each come before the next place where they agree for a while.
    fn resume(&self) -> (usize, usize) {
        let pairs = self.pairs();
        let agree = |from: usize| pairs[from..].iter().take(AGREEING).all(|pair| self.equal(pair));
        let before = &pairs[..(0..pairs.len()).find(|&k| agree(k)).unwrap_or(pairs.len())];
        (before.iter().filter(|pair| pair.0.is_some()).count(), before.iter().filter(|pair| pair.1.is_some()).count())
    }
}

/// How many elements are equal from the front.
pub fn alike<T: PartialEq>(a: impl Iterator<Item = T>, b: impl Iterator<Item = T>) -> usize {
    a.zip(b).take_while(|(a, b)| a == b).count()
}

/// Every gap, from the front.
pub fn gaps<T: Eq + Hash>(a: &[&T], b: &[&T], cost: &impl Fn(&T, &T) -> Option<usize>) -> Vec<Gap> {
    let mut gaps = Vec::new();
    add_gaps(a, b, (0, 0), cost, &mut gaps);
    gaps
}

/// Adds the gaps of parts of both sequences, which begin at `from`.
fn add_gaps<T: Eq + Hash>(
    a: &[&T],
    b: &[&T],
    from: (usize, usize),
    cost: &impl Fn(&T, &T) -> Option<usize>,
    gaps: &mut Vec<Gap>,
) {
    let ahead = alike(a.iter(), b.iter());
    let (a, b, from) = (&a[ahead..], &b[ahead..], (from.0 + ahead, from.1 + ahead));
    if a.len() * b.len() <= WEIGHED {
        return weigh_gaps(a, b, from, cost, gaps);
    }
    let behind = alike(a.iter().rev(), b.iter().rev());
    let (a, b) = (&a[..a.len() - behind], &b[..b.len() - behind]);
    let anchors = anchors(a, b);
    if anchors.is_empty() {
        return weigh_gaps(a, b, from, cost, gaps);
    }
    let (mut i, mut j) = (0, 0);
    for (x, y) in anchors.into_iter().chain([(a.len(), b.len())]) {
        add_gaps(&a[i..x], &b[j..y], (from.0 + i, from.1 + j), cost, gaps);
        (i, j) = (x + 1, y + 1);
    }
}

/// Adds the gaps of parts between which nothing is known to hold them together.
fn weigh_gaps<T: Eq>(
    a: &[&T],
    b: &[&T],
    from: (usize, usize),
    cost: &impl Fn(&T, &T) -> Option<usize>,
    gaps: &mut Vec<Gap>,
) {
    let (mut i, mut j) = (0, 0);
    while i < a.len() || j < b.len() {
        let ahead = alike(a[i..].iter(), b[j..].iter());
        (i, j) = (i + ahead, j + ahead);
        let (m, n) = Aligned::front(&a[i..], &b[j..], cost).resume();
        let (x, y) = (from.0 + i, from.1 + j);
        match gaps.last_mut() {
            Some((first, second)) if first.end == x && second.end == y => (first.end, second.end) = (x + m, y + n),
            _ if m + n > 0 => gaps.push((x..x + m, y..y + n)),
            _ => {}
        }
        (i, j) = (i + m, j + n);
    }
}

/// What stands for what in a gap; where it is wide, as much of it as is weighed at a time.
pub fn pairs<T>(a: &[&T], b: &[&T], cost: &impl Fn(&T, &T) -> Option<usize>) -> Vec<Pair> {
    let mut pairs = Vec::new();
    let (mut i, mut j) = (0, 0);
    while i < a.len() || j < b.len() {
        let part = Aligned { a_goes_on: false, b_goes_on: false, ..Aligned::front(&a[i..], &b[j..], cost) };
        pairs.extend(part.pairs().into_iter().map(|(x, y)| (x.map(|x| x + i), y.map(|y| y + j))));
        (i, j) = (i + part.a.len(), j + part.b.len());
    }
    pairs
}
