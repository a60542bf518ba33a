// The oracle's command line: word lists in, the Rust's answers out. The work is done in lib.rs.
//
// Standard input, one case to a line; an empty line is the empty word list:
//   <words>                                    decode
//   M <min> <max> <k> <k symbols> <words>      decode, then ask every edge about every symbol
// Standard output, one line to a case:
//   OK <network>              accepted; `dump` in lib.rs has the form
//   ERR <text>                refused, with the Rust's own text
//   MATCH <bits> <bits> ..    a string of 1 and 0 for each edge, state by state
//   SKIP <why>                not asked: a count would have the Rust ask for too much memory
//   BAD <why>                 the line is no case
// With --probe, OK and ERR begin with `@n `, the number of words that the answer rests on (`rests_on`).
use std::io::{BufRead, Write};

fn decoded(words: &[i32], probe: bool) -> String {
    let answer = oracle::decode(words);
    let at = if probe { format!("@{} ", oracle::rests_on(words, &answer)) } else { String::new() };
    match answer {
        Ok(atn) => format!("{at}OK {}", oracle::dump(&atn)),
        Err(text) => format!("{at}ERR {text}"),
    }
}

fn matched(all: &[i32]) -> String {
    let [min, max, k, rest @ ..] = all else {
        return String::from("BAD min, max and the number of symbols are missing");
    };
    let Some((symbols, words)) = usize::try_from(*k).ok().and_then(|k| rest.split_at_checked(k)) else {
        return String::from("BAD not so many symbols");
    };
    if let Some(why) = oracle::too_large(words) {
        return format!("SKIP {why}");
    }
    match oracle::decode(words) {
        Ok(atn) => format!("MATCH{}", oracle::matching(&atn, symbols, *min, *max)),
        Err(text) => format!("ERR {text}"),
    }
}

fn reply(line: &str, probe: bool) -> String {
    let (asked, rest) = match line.strip_prefix("M ") {
        Some(rest) => (true, rest),
        None => (false, line),
    };
    let all: Vec<i32> = match rest.split_ascii_whitespace().map(str::parse).collect() {
        Ok(all) => all,
        Err(why) => return format!("BAD {why}"),
    };
    if asked {
        return matched(&all);
    }
    match oracle::too_large(&all) {
        Some(why) => format!("SKIP {why}"),
        None => decoded(&all, probe),
    }
}

fn main() {
    let probe = std::env::args().any(|word| word == "--probe");
    let mut out = std::io::BufWriter::new(std::io::stdout().lock());
    for line in std::io::stdin().lock().lines() {
        let line = line.expect("standard input is text");
        writeln!(out, "{}", reply(&line, probe)).expect("standard output is open");
    }
}
