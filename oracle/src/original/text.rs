//! Stub: a token of a text, as `pipeline` reads it.

pub struct Token {
    pub name: String,
    pub whitespace: String,
    pub prepunctuation: String,
    pub punctuation: String,
}
