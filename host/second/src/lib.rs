//! A second mesher, writer, reader and checker, written from document 01 and document 02 (iii), (iv) and (vi) alone, a search for
//! pieces from document 02 (v), the same of binary STL from document 02 (i), and of volumes in f32 from document 02 (vii).
//!
//! It works on coordinates, sets and maps. The proved code works on lent slices, edge slots and cube words;
//! the two share no table and no trick, so that one can be held against the other. The tool does not use it.
//!
//! The calls take the same slices as the proved library's and leave them as the documents promise.

mod build;
mod check;
mod file;
pub mod floats;
mod lattice;
mod list;
mod pieces;
mod sheet;
pub mod stl;

pub use build::{build, build_under, Built, Start, Volume, Work};
pub use check::{check, Verdict};
pub use file::{parse, read, serialize, write, Content, Got, Wrote};
pub use lattice::{Lattice, Point, FILL};
pub use list::{listing, volume};
pub use pieces::{pieces, scan, Found};
pub use sheet::{crossing, Edge, Rule, Sheet};
