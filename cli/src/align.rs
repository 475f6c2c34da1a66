//! Which record of one codeplug is which of another: the same one, whatever number it has.
use std::collections::HashMap;
use std::hash::Hash;

pub struct Aligned {
    /// For each of A's records its place in B.
    pub to: Vec<Option<usize>>,
    /// For each of B's records its place in A.
    pub from: Vec<Option<usize>>,
    /// For each of A's records whether B has it in another order.
    pub moved: Vec<bool>,
}

/// Aligns records by all that they hold, then by name, then by standing between the same neighbours.
pub fn align<K: Eq + Hash>(a: &[K], b: &[K], names: (&[&str], &[&str])) -> Aligned {
    let mut both = Aligned { to: vec![None; a.len()], from: vec![None; b.len()], moved: vec![false; a.len()] };
    let same = a.iter().zip(b).take_while(|(x, y)| x == y).count();
    let left = a.len().min(b.len()) - same;
    let ending = a.iter().rev().zip(b.iter().rev()).take(left).take_while(|(x, y)| x == y).count();
    (0..same).for_each(|n| both.pair(n, n));
    (1..=ending).for_each(|n| both.pair(a.len() - n, b.len() - n));
    both.by_key(a, b);
    both.by_key(names.0, names.1);
    both.by_neighbours();
    both.mark_moved();
    both
}

impl Aligned {
    fn pair(&mut self, a: usize, b: usize) {
        self.to[a] = Some(b);
        self.from[b] = Some(a);
    }

    /// Pairs what is not paired yet and has the same key, in order.
    fn by_key<K: Eq + Hash>(&mut self, a: &[K], b: &[K]) {
        let mut places = self.places_left(b);
        for (n, key) in a.iter().enumerate() {
            let found = if self.to[n].is_none() { places.get_mut(key).and_then(Vec::pop) } else { None };
            found.into_iter().for_each(|found| self.pair(n, found));
        }
    }

    /// The places of each key in B that are not paired yet, the first one last.
    fn places_left<'a, K: Eq + Hash>(&self, b: &'a [K]) -> HashMap<&'a K, Vec<usize>> {
        let mut places: HashMap<&K, Vec<usize>> = HashMap::new();
        for n in (0..b.len()).rev().filter(|n| self.from[*n].is_none()) {
            places.entry(&b[n]).or_default().push(n);
        }
        places
    }

    /// Pairs runs of the same length that stand behind paired neighbours.
    fn by_neighbours(&mut self) {
        let mut n = 0;
        while n < self.to.len() {
            let run = self.to[n..].iter().take_while(|to| to.is_none()).count();
            let start = if n == 0 { Some(0) } else { self.to[n - 1].map(|before| before + 1) };
            let theirs = start.map_or(0, |start| self.from[start..].iter().take_while(|from| from.is_none()).count());
            if run == theirs {
                (0..run).for_each(|i| self.pair(n + i, start.unwrap_or(0) + i));
            }
            n += run.max(1);
        }
    }

    /// The longest run of pairs in the same order stays; what is not in it has moved.
    fn mark_moved(&mut self) {
        let pairs: Vec<(usize, usize)> = self.to.iter().enumerate().filter_map(|(a, b)| b.map(|b| (a, b))).collect();
        let theirs: Vec<usize> = pairs.iter().map(|(_, b)| *b).collect();
        pairs.iter().for_each(|(a, _)| self.moved[*a] = true);
        rising(&theirs).into_iter().for_each(|n| self.moved[pairs[n].0] = false);
    }
}

/// The places of a longest rising run, with gaps, of different numbers, the last one first.
fn rising(numbers: &[usize]) -> Vec<usize> {
    // For each length the run that ends lowest; for each number the one before it.
    let (mut ends, mut before): (Vec<usize>, Vec<Option<usize>>) = (Vec::new(), Vec::new());
    for (n, number) in numbers.iter().enumerate() {
        let length = ends.partition_point(|end| numbers[*end] < *number);
        before.push(length.checked_sub(1).map(|shorter| ends[shorter]));
        match ends.get_mut(length) {
            Some(end) => *end = n,
            None => ends.push(n),
        }
    }
    std::iter::successors(ends.last().copied(), |n| before[*n]).collect()
}

/// The entries of two lists that stay, as pairs of places: their longest common run with gaps, or where that would take long, what they
/// begin and end with.
pub fn common(a: &[usize], b: &[usize]) -> Vec<(usize, usize)> {
    let start = a.iter().zip(b).take_while(|(x, y)| x == y).count();
    let left = a.len().min(b.len()) - start;
    let ending = a.iter().rev().zip(b.iter().rev()).take(left).take_while(|(x, y)| x == y).count();
    let (inner_a, inner_b) = (&a[start..a.len() - ending], &b[start..b.len() - ending]);
    let mut pairs: Vec<(usize, usize)> = (0..start).map(|n| (n, n)).collect();
    if inner_a.len() * inner_b.len() <= 4_000_000 {
        pairs.extend(longest(inner_a, inner_b).into_iter().map(|(x, y)| (x + start, y + start)));
    }
    pairs.extend((1..=ending).rev().map(|n| (a.len() - n, b.len() - n)));
    pairs
}

/// Pairs of places of a longest common run with gaps.
fn longest(a: &[usize], b: &[usize]) -> Vec<(usize, usize)> {
    let (width, most) = (b.len() + 1, lengths(a, b));
    let (mut i, mut j, mut pairs) = (0, 0, Vec::new());
    while i < a.len() && j < b.len() {
        if a[i] == b[j] {
            pairs.push((i, j));
            (i, j) = (i + 1, j + 1);
        } else if most[(i + 1) * width + j] >= most[i * width + j + 1] {
            i += 1;
        } else {
            j += 1;
        }
    }
    pairs
}

/// The length of a longest common run of what follows each place of A and each of B, row by row.
fn lengths(a: &[usize], b: &[usize]) -> Vec<u16> {
    let width = b.len() + 1;
    let mut most = vec![0; (a.len() + 1) * width];
    for at in (0..a.len() * width).rev().filter(|at| at % width < b.len()) {
        let (i, j) = (at / width, at % width);
        most[at] = if a[i] == b[j] { most[at + width + 1] + 1 } else { most[at + width].max(most[at + 1]) };
    }
    most
}
