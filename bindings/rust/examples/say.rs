//! Says words with the example's tables, or with a folder of sections, and prints their sources and syllables.
//!
//!     cargo run --features std --example say -- lead gobo
//!     SECTIONS=folder cargo run --features std --example say -- lead gobo

use pronouncer::{
    example, Letters, Lexicon, Sheet, SheetVersion, Store, Tables, ITEM_BYTES, SLOT_BYTES,
};
use std::env;
use std::error::Error;

fn main() -> Result<(), Box<dyn Error>> {
    let words: Vec<String> = env::args().skip(1).collect();
    match env::var_os("SECTIONS") {
        None => say(&example::LEXICON, &example::LETTERS, &words),
        Some(folder) => {
            let tables = Tables::read(folder)?;
            say(&tables.lexicon(), &tables.letters(), &words)
        }
    }
}

fn say(lexicon: &Lexicon, letters: &Letters, words: &[String]) -> Result<(), Box<dyn Error>> {
    if !lexicon.check_lexicon()? {
        eprintln!("the lexicon is damaged or out of order; words that meet the damage are refused");
    }
    let (mut slots, mut items) = ([0; SLOT_BYTES], [0; 1024 * ITEM_BYTES]);
    let store = Store::new_store(&mut slots)?;
    let mut sheet = Sheet::new_sheet(&mut items, SheetVersion::V2)?;
    for word in words {
        match sheet.say_word(lexicon, letters, &store, word, "") {
            Ok(said) if said.place() > 0 => {
                eprintln!("{word}: only \"{}\" was read", &word[said.place()..]);
            }
            Ok(_) => {}
            Err(refused) => eprintln!("{word}: {refused}"),
        }
    }
    for word in &sheet {
        let syllables = word.syllables().map(|syllable| {
            let phones: Vec<&str> = syllable.phones().collect();
            format!("{} {}", phones.join(" "), syllable.stress())
        });
        let told = syllables.collect::<Vec<String>>().join(" - ");
        println!("{} ({}): {told}", word.text(), word.source());
    }
    Ok(())
}
