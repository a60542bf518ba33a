// Stands in for the Rust's errors.rs: the one case that the lexer decoder makes.
#[derive(Debug, Clone, Eq, PartialEq)]
pub enum AntlrError {
    Unsupported(String),
}
