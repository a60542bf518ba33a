// Stands in for a module that rust/atn/mod.rs declares and the lexer decoder never uses.
