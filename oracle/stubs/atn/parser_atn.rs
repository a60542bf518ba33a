// Stands in for the Rust's parser_atn.rs: the parser half of serialized.rs names these items, and the lexer
// half never reaches them. Each body is unreachable.
use super::AtnStateKind;
use std::fmt;

pub struct ParserAtn;
#[derive(Debug)]
pub struct ParserAtnError;
impl fmt::Display for ParserAtnError {
    fn fmt(&self, _: &mut fmt::Formatter<'_>) -> fmt::Result {
        unreachable!()
    }
}
#[derive(Clone, Copy)]
pub struct ParserIntervalSetId;
pub struct ParserStateId;
impl ParserStateId {
    pub fn index(&self) -> usize {
        unreachable!()
    }
}
#[derive(Clone)]
pub enum ParserTransitionSpec {
    Epsilon { target: usize },
    Range { target: usize, start: i32, stop: i32 },
    Rule { target: usize, rule_index: usize, follow_state: usize, precedence: i32 },
    Predicate { target: usize, rule_index: usize, pred_index: usize, context_dependent: bool },
    Atom { target: usize, label: i32 },
    Action { target: usize, rule_index: usize, action_index: Option<usize>, context_dependent: bool },
    Set { target: usize, set: ParserIntervalSetId },
    NotSet { target: usize, set: ParserIntervalSetId },
    Wildcard { target: usize },
    Precedence { target: usize, precedence: i32 },
}
type R<T> = Result<T, ParserAtnError>;
pub struct ParserAtnBuilder;
impl ParserAtnBuilder {
    pub fn new(_: i32) -> Self { unreachable!() }
    pub fn add_state(&mut self, _: AtnStateKind, _: Option<usize>) -> R<ParserStateId> { unreachable!() }
    pub fn set_end_state(&mut self, _: usize, _: usize) -> R<()> { unreachable!() }
    pub fn set_loop_back_state(&mut self, _: usize, _: usize) -> R<()> { unreachable!() }
    pub fn set_non_greedy(&mut self, _: usize) -> R<()> { unreachable!() }
    pub fn set_left_recursive_rule(&mut self, _: usize) -> R<()> { unreachable!() }
    pub fn state_count(&self) -> usize { unreachable!() }
    pub fn state_kind(&self, _: usize) -> Option<AtnStateKind> { unreachable!() }
    pub fn state_rule_index(&self, _: usize) -> Option<usize> { unreachable!() }
    pub fn set_rule_to_start_state(&mut self, _: Vec<usize>) -> R<()> { unreachable!() }
    pub fn set_rule_to_stop_state(&mut self, _: Vec<usize>) -> R<()> { unreachable!() }
    pub fn add_interval_set(&mut self, _: Vec<(i32, i32)>) -> R<ParserIntervalSetId> { unreachable!() }
    pub fn add_transition(&mut self, _: usize, _: ParserTransitionSpec) -> R<()> { unreachable!() }
    pub fn add_decision_state(&mut self, _: usize) -> R<()> { unreachable!() }
    pub fn transitions_from(&self, _: usize) -> std::vec::IntoIter<ParserTransitionSpec> { unreachable!() }
    pub fn rule_stop_state(&self, _: usize) -> Option<usize> { unreachable!() }
    pub fn finish(self) -> R<ParserAtn> { unreachable!() }
}
