//! Orders of lists whose beginnings are used alone: `sample` takes the first few hundred edges.
//! And random orders.

use splitmix::SplitMix64;
use std::collections::HashSet;
use std::hash::Hash;

/// The first item of each list, then the second of each, and so on to the end of the longest.
pub fn alternated<T: Clone + Eq + Hash>(lists: impl AsRef<[Vec<T>]>) -> Vec<T> {
    let lists = lists.as_ref();
    let length = lists.iter().map(Vec::len).max().unwrap_or(0);
    let rows = (0..length).flat_map(|row| lists.iter().filter_map(move |list| list.get(row)));
    distinct(rows.cloned().collect())
}

/// Without those that were there before.
pub fn distinct<T: Clone + Eq + Hash>(items: Vec<T>) -> Vec<T> {
    let mut seen = HashSet::new();
    items.into_iter().filter(|item| seen.insert(item.clone())).collect()
}

/// The same items in a fixed order without a pattern.
pub fn shuffled<T>(items: impl IntoIterator<Item = T>) -> Vec<T> {
    let key = |number| SplitMix64::for_line(0, number).next_word();
    let mut keyed: Vec<(u64, T)> = (0..).map(key).zip(items).collect();
    keyed.sort_by_key(|&(key, _)| key);
    keyed.into_iter().map(|(_, item)| item).collect()
}

pub fn reordered<T>(rng: &mut SplitMix64, items: impl IntoIterator<Item = T>) -> Vec<T> {
    let mut keyed: Vec<(u64, T)> = items.into_iter().map(|item| (rng.next_word(), item)).collect();
    keyed.sort_by_key(|&(key, _)| key);
    keyed.into_iter().map(|(_, item)| item).collect()
}
