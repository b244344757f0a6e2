//! What is found in a folder, and what it comes to.

use std::path::{Path, PathBuf};

/// What to do about a disagreement with the library.
pub const REPORT: &str = "tell the makers of check_tables, with these tables";

/// What is wrong with a folder that is not fit.
#[derive(Clone, Copy, Debug, PartialEq, Eq)]
pub enum Kind {
    Missing,
    Form,
    Lexicon,
    Letters,
    Machine,
    Checksum,
    Internal,
}

impl Kind {
    /// Its name for scripts.
    pub fn name(self) -> &'static str {
        match self {
            Kind::Missing => "missing",
            Kind::Form => "form",
            Kind::Lexicon => "lexicon",
            Kind::Letters => "letters",
            Kind::Machine => "machine",
            Kind::Checksum => "checksum",
            Kind::Internal => "internal",
        }
    }

    /// Why a folder is not fit.
    pub fn reason(self) -> &'static str {
        match self {
            Kind::Missing => "a section is missing or cannot be read",
            Kind::Form => "a section breaks its form",
            Kind::Lexicon => "the lexicon has a damaged entry, or one out of order",
            Kind::Letters => "a letter's tree is damaged",
            Kind::Machine => "a machine has a cell that leads outside",
            Kind::Checksum => "a section is not the one that its checksum was taken of",
            Kind::Internal => "check_tables and the library disagree",
        }
    }
}

/// Where something stands: a file, and as much more as is known.
#[derive(Clone, Debug, Default, PartialEq, Eq)]
pub struct Place {
    pub section: &'static str,
    pub byte: Option<usize>,
    pub entry: Option<usize>,
    pub letter: Option<char>,
    pub node: Option<usize>,
}

impl Place {
    pub fn of(section: &'static str) -> Place {
        Place { section, ..Place::default() }
    }

    pub fn at(section: &'static str, byte: usize) -> Place {
        Place { byte: Some(byte), ..Place::of(section) }
    }
}

/// Something for which a folder is not fit.
#[derive(Clone, Debug)]
pub struct Fault {
    pub kind: Kind,
    pub place: Place,
    pub sentence: String,
}

impl Fault {
    /// What comes of the library's verdict on a section and of the search for its first fault: none if both find it in
    /// order. That they disagree is a fault of this program or of the library, and told as such.
    pub fn judged(
        kind: Kind,
        section: &'static str,
        is_taken: bool,
        found: Option<(Place, String)>,
    ) -> Option<Fault> {
        let (kind, place, sentence) = match (is_taken, found) {
            (true, None) => return None,
            (false, Some((place, sentence))) => (kind, place, sentence),
            (true, Some((place, sentence))) => {
                let sentence = format!("the library finds no fault, but {sentence}; {REPORT}");
                (Kind::Internal, place, sentence)
            }
            (false, None) => {
                let sentence =
                    format!("the library finds a fault, and its place was not found; {REPORT}");
                (Kind::Internal, Place::of(section), sentence)
            }
        };
        Some(Fault { kind, place, sentence })
    }
}

/// An entry or a leaf that uses a doubtful phone.
#[derive(Clone, Debug)]
pub struct User {
    pub name: String,
    pub place: Place,
}

/// Something doubtful, for which a folder is still fit: a phone, and who uses it.
#[derive(Clone, Debug)]
pub struct Warning {
    pub place: Place,
    pub phone: String,
    pub sentence: String,
    /// None where a fault is in the way.
    pub users: Option<Vec<User>>,
}

/// One line of the details.
#[derive(Clone, Debug)]
pub enum Detail {
    /// A section whose form holds, and how many of what it has.
    Held(&'static str, usize, &'static str),
    /// Anything else that is in order.
    Note(&'static str, &'static str),
    Fault(Fault),
    Warning(Warning),
}

/// What is counted; none where a fault is in the way.
#[derive(Clone, Debug, Default)]
pub struct Summary {
    pub entries: Option<usize>,
    /// Different words.
    pub words: Option<usize>,
    /// Words with more than one entry.
    pub homographs: Option<usize>,
    pub nodes: Option<usize>,
    /// The most nodes on a way from a letter's first node to a leaf, and that letter.
    pub deepest: Option<(usize, char)>,
    /// Phones of lex.phones that no entry has, and of lts.phones that no leaf has.
    pub unused: [Option<Vec<String>>; 2],
    /// How many entries and how many leaves have a secondary stress.
    pub secondary: [Option<usize>; 2],
}

/// The sheets that tables suit.
#[derive(Clone, Copy, Debug)]
pub struct Sheets {
    /// How many entries and how many leaves have a secondary stress, which version 1 leaves on the phone.
    pub entries: usize,
    pub leaves: usize,
}

impl Sheets {
    /// The versions that take every stress off.
    pub fn versions(&self) -> &'static [usize] {
        match (self.entries, self.leaves) {
            (0, 0) => &[1, 2],
            _ => &[2],
        }
    }
}

impl Summary {
    /// The sheets that the tables suit; none where a fault is in the way.
    pub fn sheets(&self) -> Option<Sheets> {
        let [entries, leaves] = self.secondary;
        Some(Sheets { entries: entries?, leaves: leaves? })
    }
}

/// All that is told of a folder.
#[derive(Clone, Debug)]
pub struct Report {
    pub folder: PathBuf,
    pub summary: Summary,
    pub details: Vec<Detail>,
}

impl Report {
    pub fn of(folder: &Path) -> Report {
        Report { folder: folder.to_path_buf(), summary: Summary::default(), details: Vec::new() }
    }

    pub fn fault(&mut self, kind: Kind, place: Place, sentence: impl Into<String>) {
        let sentence = sentence.into();
        self.details.push(Detail::Fault(Fault { kind, place, sentence }));
    }

    pub fn note(&mut self, name: &'static str, sentence: &'static str) {
        self.details.push(Detail::Note(name, sentence));
    }

    pub fn faults(&self) -> impl Iterator<Item = &Fault> {
        self.details.iter().filter_map(|detail| match detail {
            Detail::Fault(fault) => Some(fault),
            _ => None,
        })
    }

    pub fn warnings(&self) -> impl Iterator<Item = &Warning> {
        self.details.iter().filter_map(|detail| match detail {
            Detail::Warning(warning) => Some(warning),
            _ => None,
        })
    }

    pub fn is_fit(&self) -> bool {
        self.faults().next().is_none()
    }

    /// Why it is not fit, each reason once.
    pub fn reasons(&self) -> Vec<&'static str> {
        let mut reasons = Vec::new();
        for fault in self.faults() {
            if !reasons.contains(&fault.kind.reason()) {
                reasons.push(fault.kind.reason());
            }
        }
        reasons
    }
}

#[cfg(test)]
mod tests {
    use super::*;

    fn judged(is_taken: bool, found: Option<&str>) -> Option<(Kind, String)> {
        let found = found.map(|sentence| (Place::at("lex.data", 7), sentence.to_string()));
        let fault = Fault::judged(Kind::Lexicon, "lex.data", is_taken, found)?;
        Some((fault.kind, fault.sentence))
    }

    #[test]
    fn the_library_and_the_search_agree_or_it_is_told() {
        assert_eq!(judged(true, None), None);
        assert_eq!(judged(false, Some("x")), Some((Kind::Lexicon, "x".to_string())));
        let told = judged(true, Some("x")).expect("they disagree");
        assert_eq!(told.0, Kind::Internal);
        assert!(told.1.starts_with("the library finds no fault, but x; tell the makers"));
        let told = judged(false, None).expect("they disagree");
        assert_eq!(told.0, Kind::Internal);
        assert!(told.1.starts_with("the library finds a fault, and its place was not found; tell"));
    }
}
