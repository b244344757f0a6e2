//! Rows of the table: what inputs met on their way.

/// Rows of the table in groups, each row with what it counts. Makes one list of the groups' names, and for each group a
/// function that tells which of its rows are met.
macro_rules! rows {
    ($vis:vis $all:ident:
     $($(#[$about:meta])* $met:ident($($given:ident: $kind:ty),* $(,)?)
       $({ $($before:tt)* })? [ $($name:expr => $is_met:expr),* $(,)? ])*) => {
        $vis const $all: &[&[&str]] = &[$(&[$($name),*]),*];

        $($(#[$about])*
        $vis fn $met($($given: $kind),*) -> Vec<&'static str> {
            $($($before)*)?
            let rows = [$(($name, $is_met)),*];
            rows.iter().filter(|row| row.1).map(|row| row.0).collect()
        })*
    };
}

/// What something must be, in groups, each with the row that counts what is not. Makes one list of the groups' rows, and
/// for each group a function that tells the first row that is met, as what is amiss.
macro_rules! checks {
    ($vis:vis $all:ident:
     $($(#[$about:meta])* $check:ident($($given:ident: $kind:ty),* $(,)?)
       $({ $($before:tt)* })? [ $($amiss:literal => $is_so:expr),* $(,)? ])*) => {
        $vis const $all: &[&[&str]] = &[$(&[$($amiss),*]),*];

        $($(#[$about])*
        fn $check($($given: $kind),*) -> Result<(), &'static str> {
            $($($before)*)?
            $(if !$is_so {
                return Err($amiss);
            })*
            Ok(())
        })*
    };
}

/// The rank order of the refusals.
const RANKS: [u32; 17] = [1, 2, 15, 16, 17, 10, 11, 12, 13, 14, 3, 4, 5, 6, 7, 8, 9];

/// The rows that an input met.
#[derive(Default)]
pub struct Met {
    rows: Vec<&'static str>,
    /// Rows that count only in tables that have them.
    shared: Vec<&'static str>,
    /// The rank of the refusal that was last in question.
    rank: usize,
}

impl Met {
    pub fn row(&mut self, row: &'static str) {
        self.rows.push(row);
    }

    pub fn add(&mut self, row: &'static str, is_met: bool) {
        self.rows.extend(is_met.then_some(row));
    }

    pub fn all(&mut self, rows: impl IntoIterator<Item = &'static str>) {
        self.rows.extend(rows);
    }

    /// The same, of which each row counts once.
    pub fn once(&mut self, rows: impl IntoIterator<Item = &'static str>) {
        for row in rows {
            self.add(row, !self.rows.contains(&row));
        }
    }

    /// Rows that several tables have some of.
    pub fn shared(&mut self, rows: impl IntoIterator<Item = &'static str>) {
        self.shared.extend(rows);
    }

    /// Refuses what is so, with rows that tell why. Refusals come into question in rank order.
    pub fn refuse<R: IntoIterator<Item = &'static str>>(
        &mut self,
        refusal: u32,
        is_so: bool,
        why: impl FnOnce() -> R,
    ) -> Result<(), u32> {
        let rank = RANKS.iter().position(|ranked| *ranked == refusal);
        assert!(rank >= Some(self.rank), "refusal {refusal} is out of rank");
        self.rank = rank.unwrap_or(0);
        if is_so {
            self.all(why());
        }
        (!is_so).then_some(()).ok_or(refusal)
    }

    /// Refuses a store or a sheet that is not sound.
    pub fn sound<T>(&mut self, read: &Result<T, &'static str>) -> Result<(), u32> {
        self.refuse(2, read.is_err(), || read.as_ref().err().copied())
    }

    /// All of them, in a table of these rows.
    pub fn counted(self, table: &[&[&[&str]]]) -> Vec<&'static str> {
        let known = table.concat().concat();
        let shared = self.shared.into_iter().filter(|row| known.contains(row));
        self.rows.into_iter().chain(shared).collect()
    }
}
