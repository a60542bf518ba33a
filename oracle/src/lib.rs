// The oracle as a library: the Rust lexer decoder, and what it answers written as one line of text.
// The decoder itself is atn/serialized.rs and atn/mod.rs, byte for byte; build.sh lays them beside this file.
// A program that compares with the Rust links this library (see oracle/README.md).
pub mod atn;
pub mod errors;
pub mod token;

use atn::serialized::{AtnDeserializer, SerializedAtn};
use atn::{AtnStateKind, IntervalSet, LexerAction, LexerAtn, LexerTransition};
use errors::AntlrError;
use std::fmt::Write as _;

/// What the Rust makes of the words: its network, or its error text.
pub fn decode(words: &[i32]) -> Result<LexerAtn, String> {
    let serialized = SerializedAtn::from_i32(words);
    AtnDeserializer::new(&serialized).deserialize().map_err(|error| match error {
        AntlrError::Unsupported(text) => text,
    })
}

/// How many words the answer rests on: the length of the shortest prefix that is answered alike. For an
/// acceptance these are the words read; for an error, one past the last word looked at. The Rust says
/// neither. An error that the words ended rests on all of them.
pub fn rests_on(words: &[i32], answer: &Result<LexerAtn, String>) -> usize {
    match answer {
        Ok(_) => least(words.len(), |n| decode(&words[..n]).is_ok()),
        Err(text) if text.starts_with("serialized ATN ended") => words.len(),
        Err(text) => least(words.len(), |n| decode(&words[..n]).as_ref().err() == Some(text)),
    }
}

/// The least n up to `high` for which `holds` is true, where it is first false and then true.
fn least(mut high: usize, holds: impl Fn(usize) -> bool) -> usize {
    let mut low = 0;
    while low < high {
        let middle = low + (high - low) / 2;
        if holds(middle) { high = middle } else { low = middle + 1 }
    }
    low
}

/// A number that may be none, which is -1 in the text. The Rust has two forms of none.
pub fn or_none(number: Option<usize>) -> i64 {
    match number {
        None | Some(usize::MAX) => -1,
        Some(number) => number as i64,
    }
}

/// The state type's number in the words.
pub fn state_type(kind: AtnStateKind) -> i32 {
    match kind {
        AtnStateKind::Invalid => 0,
        AtnStateKind::Basic => 1,
        AtnStateKind::RuleStart => 2,
        AtnStateKind::BlockStart => 3,
        AtnStateKind::PlusBlockStart => 4,
        AtnStateKind::StarBlockStart => 5,
        AtnStateKind::TokenStart => 6,
        AtnStateKind::RuleStop => 7,
        AtnStateKind::BlockEnd => 8,
        AtnStateKind::StarLoopBack => 9,
        AtnStateKind::StarLoopEntry => 10,
        AtnStateKind::PlusLoopBack => 11,
        AtnStateKind::LoopEnd => 12,
    }
}

/// An edge's type, p, q, r, with p left out for a set, which the Rust holds as its ranges.
pub enum EdgeWords<'a> {
    Plain(i32, i64, i64, i64),
    OverSet(i32, &'a IntervalSet),
}

pub fn edge_words(edge: &LexerTransition) -> EdgeWords<'_> {
    use EdgeWords::{OverSet, Plain};
    match edge {
        LexerTransition::Epsilon { .. } => Plain(1, 0, 0, 0),
        LexerTransition::Range { start, stop, .. } => Plain(2, i64::from(*start), i64::from(*stop), 0),
        LexerTransition::Rule { rule_index, follow_state, precedence, .. } => {
            Plain(3, *rule_index as i64, *follow_state as i64, i64::from(*precedence))
        }
        LexerTransition::Predicate { rule_index, pred_index, context_dependent, .. } => {
            Plain(4, *rule_index as i64, *pred_index as i64, i64::from(*context_dependent))
        }
        LexerTransition::Atom { label, .. } => Plain(5, i64::from(*label), 0, 0),
        LexerTransition::Action { rule_index, action_index, context_dependent, .. } => {
            Plain(6, *rule_index as i64, or_none(*action_index), i64::from(*context_dependent))
        }
        LexerTransition::Set { set, .. } => OverSet(7, set),
        LexerTransition::NotSet { set, .. } => OverSet(8, set),
        LexerTransition::Wildcard { .. } => Plain(9, 0, 0, 0),
        LexerTransition::Precedence { precedence, .. } => Plain(10, i64::from(*precedence), 0, 0),
    }
}

/// An action's type and its two data; what the Rust does not keep is 0.
pub fn action_words(action: &LexerAction) -> (i32, i32, i32) {
    match action {
        LexerAction::Channel(v) => (0, *v, 0),
        LexerAction::Custom { rule_index, action_index } => (1, *rule_index, *action_index),
        LexerAction::Mode(v) => (2, *v, 0),
        LexerAction::More => (3, 0, 0),
        LexerAction::PopMode => (4, 0, 0),
        LexerAction::PushMode(v) => (5, *v, 0),
        LexerAction::Skip => (6, 0, 0),
        LexerAction::Type(v) => (7, *v, 0),
    }
}

/// A network on one line:
///   max token type
///   S type rule block_end loop_back flags [ edges ]      for each state; its edges in order, derived ones last
///     ( type target p q r tail )                         for each edge; p of a set edge is its ranges, {a..b,c..d}
///   R start stop token_type    M state    D state    A type d1 d2
pub fn dump(atn: &LexerAtn) -> String {
    let mut line = format!("{}", atn.max_token_type());
    for state in atn.states() {
        let flags = i32::from(state.non_greedy)
            | i32::from(state.left_recursive_rule) << 1
            | i32::from(state.precedence_rule_decision) << 2;
        let _ = write!(
            line,
            " S {} {} {} {} {} [",
            state_type(state.kind),
            or_none(state.rule_index),
            or_none(state.end_state),
            or_none(state.loop_back_state),
            flags
        );
        for edge in &state.transitions {
            let (kind, p, q, r) = match edge_words(edge) {
                EdgeWords::Plain(kind, p, q, r) => (kind, p.to_string(), q, r),
                EdgeWords::OverSet(kind, set) => {
                    let parts: Vec<String> =
                        set.ranges().iter().map(|(a, b)| format!("{a}..{b}")).collect();
                    (kind, format!("{{{}}}", parts.join(",")), 0, 0)
                }
            };
            let tail = i32::from(edge.is_tail_call());
            let _ = write!(line, " ( {kind} {} {p} {q} {r} {tail} )", edge.target());
        }
        line.push_str(" ]");
    }
    let rules = atn.rule_to_start_state().iter().zip(atn.rule_to_stop_state()).zip(atn.rule_to_token_type());
    for ((start, stop), token) in rules {
        let _ = write!(line, " R {start} {} {token}", or_none(Some(*stop)));
    }
    for state in atn.mode_to_start_state() {
        let _ = write!(line, " M {state}");
    }
    for state in atn.decision_to_state() {
        let _ = write!(line, " D {state}");
    }
    for action in atn.lexer_actions() {
        let (kind, d1, d2) = action_words(action);
        let _ = write!(line, " A {kind} {d1} {d2}");
    }
    line
}

/// Whether each edge matches each symbol: a string of 1 and 0 for each edge, state by state.
pub fn matching(atn: &LexerAtn, symbols: &[i32], min: i32, max: i32) -> String {
    let mut line = String::new();
    for edge in atn.states().iter().flat_map(|state| &state.transitions) {
        line.push(' ');
        for &symbol in symbols {
            line.push(if edge.matches(symbol, min, max) { '1' } else { '0' });
        }
    }
    line
}

/// The largest rule, set or action count that is let through by `too_large`.
pub const GUARD: i32 = 1 << 20;

/// The Rust asks for memory by a rule, set or action count before it reads on. Says which count above GUARD
/// it would reach, so that a caller can leave the list out; none where it is sure to stop before.
pub fn too_large(words: &[i32]) -> Option<String> {
    let mut at = 0;
    let mut next = || {
        let word = words.get(at).copied();
        at += 1;
        word
    };
    let natural = |word: i32| if word < 0 { None } else { Some(word) };
    if next()? != 4 || next()? != 0 {
        return None;
    }
    next()?;
    let states = natural(next()?)?;
    for _ in 0..states {
        match next()? {
            0 => {}
            3 | 4 | 5 | 12 => {
                next()?;
                natural(next()?)?;
            }
            1..=12 => {
                next()?;
            }
            _ => return None,
        }
    }
    for _ in 0..2 {
        for _ in 0..natural(next()?)? {
            if natural(next()?)? >= states {
                return None;
            }
        }
    }
    let rules = natural(next()?)?;
    if rules > GUARD {
        return Some(format!("rule count {rules}"));
    }
    for _ in 0..rules {
        natural(next()?)?;
        next()?;
    }
    for _ in 0..natural(next()?)? {
        natural(next()?)?;
    }
    let sets = natural(next()?)?;
    if sets > GUARD {
        return Some(format!("set count {sets}"));
    }
    for _ in 0..sets {
        let intervals = natural(next()?)?;
        next()?;
        for _ in 0..intervals {
            next()?;
            next()?;
        }
    }
    for _ in 0..natural(next()?)? {
        natural(next()?)?;
        natural(next()?)?;
        for _ in 0..4 {
            next()?;
        }
    }
    for _ in 0..natural(next()?)? {
        natural(next()?)?;
    }
    let actions = natural(next()?)?;
    if actions > GUARD {
        return Some(format!("action count {actions}"));
    }
    None
}
