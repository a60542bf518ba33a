//! Makes a list that shows a difference small, so that it can be read.

/// How many words are tried at most, over all lists.
const BUDGET: usize = 20_000_000;

/// A small list for which `fails` still says something, and what it says.
pub fn shrink(words: &[i32], what: String, mut fails: impl FnMut(&[i32]) -> Option<String>) -> (Vec<i32>, String) {
    let mut best = (words.to_vec(), what);
    let mut spent = 0;
    loop {
        let affordable = |list: &Vec<i32>| {
            spent += 50 + list.len();
            spent < BUDGET
        };
        let smaller = candidates(&best.0).take_while(affordable).find_map(|list| fails(&list).map(|what| (list, what)));
        match smaller {
            Some(found) => best = found,
            None => return best,
        }
    }
}

/// What may be tried in place of a list, the boldest first: parts are dropped, halves first, then single words; a word that may be a count
/// is lowered and a record's words behind it are dropped; words are made 0 or halved.
fn candidates(words: &[i32]) -> impl Iterator<Item = Vec<i32>> {
    let all = words.len();
    let sizes = std::iter::successors(Some(all.div_ceil(2)), |&size| (size > 1).then(|| size / 2));
    let dropped = sizes.filter(|&size| size > 0).flat_map(move |size| (0..all).step_by(size).map(move |at| without(words, at, size)));
    let set = (0..all).filter(|&at| words[at] != 0);
    let records = set.clone().filter(|&at| words[at] > 0).flat_map(move |at| {
        let lowered = with(words, at, words[at] - 1);
        (at + 1..all).flat_map(move |from| [1, 2, 3, 6].map(|size| without(&lowered, from, size)))
    });
    let calmer = set.flat_map(|at| [with(words, at, 0), with(words, at, words[at] / 2)]);
    dropped.chain(calmer).chain(records).filter(move |list| list != words)
}

fn without(words: &[i32], at: usize, size: usize) -> Vec<i32> {
    let end = (at + size).min(words.len());
    [&words[..at], &words[end..]].concat()
}

fn with(words: &[i32], at: usize, word: i32) -> Vec<i32> {
    let mut copy = words.to_vec();
    copy[at] = word;
    copy
}
