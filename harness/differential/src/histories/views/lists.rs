//! Lists of prefixes: drawn from names, and such as are refused.

use oracle::shrink::shorter;
use wire::{OVER_A_LIMIT, PAST_THE_END, Random, WRONG_FIELD};

/// The most prefixes of a viewer.
const MOST: usize = 8;
/// The most bytes of a prefix.
const LONGEST: usize = 255;

/// Up to eight beginnings of names, in any order and with repeats: some none,
/// some empty, some whole names and longer ones.
pub fn drawn_prefixes(random: &mut Random, names: &[String]) -> Vec<String> {
    let count = [0, 1, 1, 2, 3, MOST][random.below(6)];
    (0..count).map(|_| prefix(random, names)).collect()
}

fn prefix(random: &mut Random, names: &[String]) -> String {
    let name = &names[random.below(names.len())];
    let mut ends: Vec<usize> = name.char_indices().map(|(place, _)| place).collect();
    ends.push(name.len());
    let end = ends[random.below(ends.len())];
    match random.below(8) {
        0 => String::new(),
        1 if name.len() < LONGEST => format!("{name}-"),
        2 => name.clone(),
        _ => name[..end].to_owned(),
    }
}

/// The prefix with fewer letters.
pub fn simpler(prefix: &str) -> Vec<String> {
    let counts = shorter(prefix.chars().count()).into_iter();
    counts
        .map(|count| prefix.chars().take(count).collect())
        .collect()
}

/// Each as a two-byte length and its bytes.
pub fn listed<P: AsRef<[u8]>>(prefixes: &[P]) -> Vec<u8> {
    let one = |prefix: &P| {
        let bytes = prefix.as_ref();
        let length = u16::try_from(bytes.len()).expect("a short prefix");
        [&length.to_be_bytes()[..], bytes].concat()
    };
    prefixes.iter().flat_map(one).collect()
}

/// Lists with their refusal: torn at each place, no UTF-8, too long, one too
/// many, and the first fault of two.
pub fn refused_lists(random: &mut Random) -> Vec<(Vec<u8>, u8)> {
    let good = listed(&["plan", "", "room"]);
    let mut lists = Vec::new();
    for end in [1, 2, 3, 5, 7, 9, 11] {
        lists.push((good[..end].to_vec(), PAST_THE_END));
    }
    let long = vec![b'p'; 256];
    let eight = listed(&["p"; MOST]);
    lists.push((listed(&[&b"plan\xc3"[..]]), WRONG_FIELD));
    lists.push((listed(&[&[0xff; 300][..]]), WRONG_FIELD));
    lists.push((listed(&[&long]), OVER_A_LIMIT));
    lists.push(([&eight[..], &[random.byte()]].concat(), OVER_A_LIMIT));
    lists.push((listed(&["p"; MOST + 1]), OVER_A_LIMIT));
    lists.push((listed(&[&long[..], &b"\xff"[..]]), OVER_A_LIMIT));
    lists.push(([&listed(&[&b"\xff"[..]])[..], &[0]].concat(), WRONG_FIELD));
    lists
}
