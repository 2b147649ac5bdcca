//! The pieces of a volume, as the library finds them.

use crate::abi::{self, Place};
use crate::room::{self, Room};
use crate::volume::Volume;

/// The lowest cube of each piece, by rising number; or the refusal. The list that is lent is as long as there are cubes, and no piece is
/// without one: refusal 20 cannot come.
pub fn find(volume: &Volume, room: &mut Room) -> Result<Vec<Place>, usize> {
    let sizes = volume.sizes;
    let mut list = vec![0; room::cubes(sizes)];
    let found = abi::pieces(sizes, &volume.samples, &mut list, room.lend(sizes));
    match found.number {
        0 => Ok(list[..found.pieces].iter().map(|number| room::cube(sizes, *number as usize)).collect()),
        number => Err(number),
    }
}
