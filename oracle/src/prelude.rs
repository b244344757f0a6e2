//! What calls and the shapes of their inputs are written with.

pub(crate) use crate::call::{ask, row_of, Asked, Call, Expected, Outcome, Rows, Table};
pub(crate) use crate::call::{Ruling, Stop, Told, OUTPUT, OUTPUT_OR_NONE, TOO_SHORT};
pub(crate) use crate::cells::{self, cell, cells, is_high, is_over, text, Cell, List, CELL};
pub(crate) use crate::lent::{all_bytes, handed, Part, Room, Size};
pub(crate) use crate::lexicons::Lexicon;
pub(crate) use crate::notation::{self, Form};
pub(crate) use crate::ours::{self, Answer, Function};
pub(crate) use crate::phones::Phones;
pub(crate) use crate::random::{Random, Served};
pub(crate) use crate::record::{self, case, named, register, registers, whole_case};
pub(crate) use crate::records::{self, zeros};
pub(crate) use crate::rows::Met;
pub(crate) use crate::scene::{ascii, ways, Add, Key, Peers, Scene};
pub(crate) use crate::sheets::{self, ITEM};
pub(crate) use crate::shrink::{with, Shrink};
pub(crate) use crate::stores::{self, Entry, MOST_PHONES, SLOT};
pub(crate) use crate::trees::Trees;
pub(crate) use crate::words::{self, Wanted};
pub(crate) use crate::{lexicon_edges, lexicon_shapes, lines, log, places};
pub(crate) use crate::{settings, settings_edges, settings_met, settings_shapes};
pub(crate) use crate::{sheet_edges, sheet_shapes, sources, spoken, store_edges, store_shapes};
pub(crate) use crate::{stresses, tree_edges, tree_shapes};
pub(crate) use original::lexicon::LexiconError;
pub(crate) use original::{lexicon, phoneset};
pub(crate) use std::rc::Rc;
