//! Everything there is, within small bounds: all choices, all sequences.

/// Every way to choose one number from each list.
pub fn choice<const N: usize>(lists: [&[u32]; N]) -> impl Iterator<Item = [u32; N]> {
    let ways: usize = lists.iter().map(|list| list.len()).product();
    (0..ways).map(move |mut way| {
        lists.map(|list| {
            let chosen = list[way % list.len()];
            way /= list.len();
            chosen
        })
    })
}

/// Every sequence over the alphabet, from the empty one up to the longest.
pub fn sequence<T: Copy>(alphabet: &[T], longest: u32) -> impl Iterator<Item = Vec<T>> {
    let size = alphabet.len();
    let of_length = move |length: u32| (0..size.pow(length)).map(move |way| (0..length).map(|at| alphabet[way / size.pow(at) % size]).collect());
    (0..=longest).flat_map(of_length)
}
