//! Binary STL: a sheet's triangles as a file, and a file's facets as integers.

use crate::abi::{self, Verdict};
use crate::sheet::Sheet;

/// Bytes before the facets: header and count.
pub const HEAD: usize = 84;

/// Bytes of a facet.
pub const FACET: usize = 50;

/// Three corners of three coordinates.
pub type Corners<T> = [[T; 3]; 3];

/// Nine numbers as three corners.
fn corners<T: Copy>(nine: &[T]) -> Corners<T> {
    std::array::from_fn(|corner| std::array::from_fn(|axis| nine[3 * corner + axis]))
}

/// The file of a sheet, or the writer's refusal.
pub fn file(sheet: &Sheet) -> Result<Vec<u8>, Verdict> {
    let (nv, nt) = (sheet.vertices.len() / 4, sheet.triangles.len() / 3);
    let mut bytes = vec![0; HEAD + FACET * nt];
    let wrote = abi::stl_write(nv, nt, &sheet.vertices, &sheet.triangles, &mut bytes);
    if wrote.number != 0 {
        return Err(Verdict { number: wrote.number, place: wrote.place });
    }
    bytes.truncate(wrote.bytes);
    Ok(bytes)
}

/// What a file holds, in the sheet's corner order, or the reader's refusal.
pub fn facets(bytes: &[u8]) -> Result<Vec<Corners<i32>>, Verdict> {
    // No file has more facets than these: refusal 7 cannot come.
    let mut numbers = vec![0; bytes.len() / FACET * 9];
    let loaded = abi::stl_read(bytes, &mut numbers);
    if loaded.number != 0 {
        return Err(Verdict { number: loaded.number, place: loaded.place });
    }
    Ok(numbers.chunks_exact(9).take(loaded.facets).map(corners).collect())
}

/// The facet count that a file says, whatever its length.
pub fn said_count(bytes: &[u8]) -> Option<u64> {
    bytes.get(80..HEAD).map(|word| u64::from(u32::from_le_bytes([word[0], word[1], word[2], word[3]])))
}

/// The length of a file of so many facets.
pub fn length(count: u64) -> u64 {
    HEAD as u64 + FACET as u64 * count
}

/// The floats of a facet in the file's order, whatever they are.
pub fn floats(bytes: &[u8], facet: usize) -> Option<Corners<f32>> {
    let from = HEAD + FACET * facet + 12;
    let words = bytes.get(from..from + 36)?.chunks_exact(4).map(|word| [word[0], word[1], word[2], word[3]]);
    Some(corners(&words.map(f32::from_le_bytes).collect::<Vec<_>>()))
}

/// The corners of a sheet's triangle.
pub fn triangle(sheet: &Sheet, vertices: [u32; 3]) -> Corners<i32> {
    vertices.map(|vertex| {
        let [_, x, y, z] = sheet.record(vertex);
        [x, y, z]
    })
}

/// Whether the corners lie on one line.
fn flat([a, b, c]: Corners<i32>) -> bool {
    let along = |to: [i32; 3]| -> [i128; 3] { std::array::from_fn(|axis| i128::from(to[axis]) - i128::from(a[axis])) };
    let ([bx, by, bz], [cx, cy, cz]) = (along(b), along(c));
    by * cz == bz * cy && bz * cx == bx * cz && bx * cy == by * cx
}

/// How many triangles of a sheet have no area. Of a sound sheet these are the ones with two corners in one place: vertices at
/// a sample of exactly 0.
pub fn flats(sheet: &Sheet) -> usize {
    sheet.corners().filter(|vertices| flat(triangle(sheet, *vertices))).count()
}

#[cfg(test)]
mod tests {
    use super::*;

    #[test]
    fn facets_of_no_area() {
        const FAR: i32 = i32::MAX;
        let (none, some) = ([[0, 0, 0], [1, 2, 3], [2, 4, 6]], [[0, 0, 0], [1, 2, 3], [2, 4, 5]]);
        assert!(flat(none) && !flat(some));
        assert!(flat([[5, 6, 7], [5, 6, 7], [1, 2, 3]]) && flat([[1, 2, 3], [5, 6, 7], [1, 2, 3]]));
        assert!(flat([[-FAR; 3], [0; 3], [FAR; 3]]) && !flat([[-FAR; 3], [0; 3], [FAR, FAR, FAR - 1]]));
    }
}
