//! Binary STL, written from document 02 (i) alone: a writer and a reader.
//!
//! Floats go through f64, where every step is exact; the proved code goes by bits.

const FARTHEST: i32 = 4_128_768;
const UNITS: f64 = 65_536.0;
const MOST_VERTICES: usize = 2_000_000;
const MOST_TRIANGLES: usize = 4_000_000;

/// A corner's three coordinates.
pub type Corner = [i32; 3];

/// Why a call was refused.
#[derive(Clone, Copy, Debug, PartialEq, Eq)]
pub struct Refused {
    pub number: usize,
    pub place: usize,
}

fn refused<T>(number: usize, place: usize) -> Result<T, Refused> {
    Err(Refused { number, place })
}

/// The float of a coordinate, in sample steps.
pub fn float(coordinate: i32) -> f32 {
    (f64::from(coordinate) / UNITS) as f32
}

/// The coordinate that gives a float, if any. Minus zero is none's.
pub fn coordinate(float: f32) -> Option<i32> {
    let units = f64::from(float) * UNITS;
    let given = float.is_sign_positive() && units.fract() == 0.0 && units <= f64::from(FARTHEST);
    given.then_some(units as i32)
}

/// The file of a sheet's triangles, where so many bytes are lent.
pub fn write(nv: usize, nt: usize, vertices: &[i32], triangles: &[u32], room: usize) -> Result<Vec<u8>, Refused> {
    if nv > vertices.len() / 4 || nt > triangles.len() / 3 || nv > MOST_VERTICES || nt > MOST_TRIANGLES {
        return refused(9, 0);
    }
    let named: Vec<&[u32]> = triangles.chunks_exact(3).take(nt).collect();
    if let Some(place) = named.iter().position(|triangle| triangle.iter().any(|&index| index as usize >= nv)) {
        return refused(15, place);
    }
    let position = |index: u32| -> Corner { std::array::from_fn(|axis| vertices[4 * index as usize + 1 + axis]) };
    let facets: Vec<Vec<Corner>> = named.iter().map(|t| t.iter().map(|&index| position(index)).collect()).collect();
    let inside = |corner: &Corner| corner.iter().all(|coordinate| (0..=FARTHEST).contains(coordinate));
    if let Some(place) = facets.iter().position(|facet| !facet.iter().all(inside)) {
        return refused(25, place);
    }
    let file = serialize(&facets);
    if room < file.len() {
        return refused(8, 0);
    }
    Ok(file)
}

/// The bytes of a file: STL's axes are right-handed, so the second and third corner trade places.
fn serialize(facets: &[Vec<Corner>]) -> Vec<u8> {
    let mut file = vec![0; 80];
    file.extend((facets.len() as u32).to_le_bytes());
    for facet in facets {
        file.extend([0; 12]);
        for corner in [facet[0], facet[2], facet[1]] {
            file.extend(corner.iter().flat_map(|&c| float(c).to_le_bytes()));
        }
        file.extend([0; 2]);
    }
    file
}

/// The corners of a facet's 50 bytes in the sheet's order, if coordinates give all its floats.
fn facet(bytes: &[u8]) -> Option<[i32; 9]> {
    let floats = bytes[12..48].chunks_exact(4).map(|b| f32::from_le_bytes([b[0], b[1], b[2], b[3]]));
    let file_order: Vec<i32> = floats.map(coordinate).collect::<Option<_>>()?;
    let (first, third, second) = (&file_order[0..3], &file_order[3..6], &file_order[6..9]);
    [first, second, third].concat().try_into().ok()
}

/// The facets' integers, nine to a facet, where so many are lent.
pub fn read(bytes: &[u8], room: usize) -> Result<Vec<[i32; 9]>, Refused> {
    if bytes.len() < 84 {
        return refused(14, 0);
    }
    let count = u32::from_le_bytes([bytes[80], bytes[81], bytes[82], bytes[83]]) as usize;
    if bytes.len() != 84 + 50 * count {
        return refused(14, 0);
    }
    let mut facets = Vec::new();
    for (place, part) in bytes[84..].chunks_exact(50).enumerate() {
        match facet(part) {
            Some(nine) => facets.push(nine),
            None => return refused(25, place),
        }
    }
    if room < 9 * count {
        return refused(7, 0);
    }
    Ok(facets)
}
