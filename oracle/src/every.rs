//! All short lists of a kind, for inputs that are gone through without a gap.

/// Every list of exactly `n` of the items, in every order and with repeats.
pub fn lists_of<T: Copy>(items: &[T], n: usize) -> Vec<Vec<T>> {
    if n == 0 {
        return vec![Vec::new()];
    }
    let shorter = lists_of(items, n - 1);
    let longer = |list: &Vec<T>| -> Vec<Vec<T>> {
        items.iter().map(|&x| [&list[..], &[x]].concat()).collect()
    };
    shorter.iter().flat_map(longer).collect()
}

/// Every list of at most `most` of the items, in every order and with repeats.
pub fn lists<T: Copy>(items: &[T], most: usize) -> Vec<Vec<T>> {
    (0..=most).flat_map(|n| lists_of(items, n)).collect()
}

/// Every list of at most `most` of the items, in the order that they are given in and each at most once.
pub fn picks<T: Copy>(items: &[T], most: usize) -> Vec<Vec<T>> {
    let Some((&first, rest)) = items.split_first() else {
        return vec![Vec::new()];
    };
    let mut all = picks(rest, most);
    if most > 0 {
        let with_first = picks(rest, most - 1).into_iter();
        all.extend(with_first.map(|list| [&[first], &list[..]].concat()));
    }
    all
}
