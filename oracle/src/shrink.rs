//! Inputs: every short one over some lists, and a smaller one that still differs.

use crate::call::{Call, Expected, Outcome};
use std::ops::Range;
use std::time::{Duration, Instant};

/// Every input over lists, in the order of loops in each other, the last the innermost; a `let` names what the loops
/// so far have in common, and behind the loops stand the inputs of one turn.
macro_rules! each {
    (@ $all:ident for $one:pat in $list:expr; $($rest:tt)+) => {
        for $one in $list {
            each!(@ $all $($rest)+);
        }
    };
    (@ $all:ident let $name:pat = $value:expr; $($rest:tt)+) => {
        let $name = $value;
        each!(@ $all $($rest)+);
    };
    (@ $all:ident $inputs:expr) => { $all.extend($inputs) };
    ($($loops:tt)+) => {{
        let mut all = vec![];
        each!(@ all $($loops)+);
        all
    }};
}

/// How many smaller inputs are tried, and for how long.
const TRIES: usize = 50_000;
const TIME: Duration = Duration::from_secs(30);

/// What is expected of an input, and what the library does.
pub type Both = (Expected, Outcome);

pub fn both<C: Call>(call: &C, input: &C::Input) -> Both {
    let expected = call.expected(input);
    let ours = call.ours(input, &expected.handed);
    (expected, ours)
}

/// Whether the library does what is expected.
pub fn agree((expected, ours): &Both) -> bool {
    expected.outcome.as_ref() == Ok(ours)
}

/// Leaves out of an input whatever can go while a difference stays.
pub fn shrink<C: Call>(call: &C, input: &C::Input) -> C::Input {
    let (mut tries, started) = (0, Instant::now());
    let mut goes_on = |_: &C::Input| {
        tries += 1;
        tries <= TRIES && started.elapsed() <= TIME
    };
    let mut best = input.clone();
    let differs = |smaller: &C::Input| !agree(&both(call, smaller));
    while let Some(smaller) = best.smaller().into_iter().take_while(&mut goes_on).find(differs) {
        best = smaller;
    }
    best
}

/// Parts of a list to leave out, the longest first; not more than 64 of a length.
pub fn parts(len: usize) -> Vec<Range<usize>> {
    let sizes = std::iter::successors(Some(len), |size| Some(size / 2));
    each! {
        for size in sizes.take_while(|size| *size > 0 && len <= 64 * size);
        (0..len).step_by(size).map(|start| start..(start + size).min(len))
    }
}

/// A list without a part of it.
pub fn without<T: Clone>(list: &[T], part: &Range<usize>) -> Vec<T> {
    [&list[..part.start], &list[part.end..]].concat()
}

/// A list with parts left out, the longest first.
pub fn shorter<T: Clone>(list: &[T]) -> Vec<Vec<T>> {
    parts(list.len()).iter().map(|part| without(list, part)).collect()
}

/// Something of which there are smaller ones, to find out what a difference needs.
pub trait Shrink: Clone {
    /// The same with something left out, the boldest first.
    fn smaller(&self) -> Vec<Self>;
}

impl Shrink for u8 {
    fn smaller(&self) -> Vec<u8> {
        vec![]
    }
}

impl Shrink for u32 {
    fn smaller(&self) -> Vec<u32> {
        vec![]
    }
}

/// Parts are left out of a list, and its first elements made smaller.
impl<T: Shrink> Shrink for Vec<T> {
    fn smaller(&self) -> Vec<Vec<T>> {
        let elements = self.iter().enumerate().take(16);
        let smaller = elements.flat_map(|(i, one)| one.smaller().into_iter().map(move |s| (i, s)));
        let plainer = with(self, smaller, |list, (i, smaller)| list[i] = smaller);
        [shorter(self), plainer].concat()
    }
}

/// A thing with each of these in the place of what it has.
pub fn with<I: Clone, T>(
    input: &I,
    others: impl IntoIterator<Item = T>,
    put: impl Fn(&mut I, T),
) -> Vec<I> {
    let made = |other: T| {
        let mut input = input.clone();
        put(&mut input, other);
        input
    };
    others.into_iter().map(made).collect()
}

/// How a struct is made smaller: each of these fields in turn, as its type is or by a function.
macro_rules! smaller {
    ($kind:ty: $($field:ident $(by $rule:expr)?),*) => {
        impl crate::shrink::Shrink for $kind {
            fn smaller(&self) -> Vec<Self> {
                let mut all = vec![];
                $(
                    let fields = smaller!(@ self.$field $(, $rule)?);
                    all.extend(crate::shrink::with(self, fields, |whole, field| whole.$field = field));
                )*
                all
            }
        }
    };
    (@ $field:expr) => { crate::shrink::Shrink::smaller(&$field) };
    (@ $field:expr, $rule:expr) => { $rule(&$field) };
}

/// The input of a call by its fields; it is made smaller by each of them in turn, as its type is or by a function.
macro_rules! input {
    ($($field:ident: $kind:ty $(=> $rule:expr)?),*) => {
        #[derive(Clone)]
        pub struct Input {
            $(pub $field: $kind),*
        }

        impl Input {
            pub fn new($($field: $kind),*) -> Input {
                Input { $($field),* }
            }
        }

        smaller!(Input: $($field $(by $rule)?),*);
    };
}
