//! Stub: what `ffeature` asks about a word's name. No comparison reads it.

pub fn gpos(_name: &str) -> &'static str {
    "content"
}

pub fn token_pos_guess(_name: &str) -> &'static str {
    "0"
}
