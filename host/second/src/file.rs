//! The sheet file: writing and reading.

use crate::build::overwrite;

const MARK: u16 = 21_331;
const MOST_VERTICES: usize = 2_000_000;
const MOST_TRIANGLES: usize = 4_000_000;

#[derive(Clone, Copy, Debug, PartialEq, Eq)]
pub struct Wrote {
    pub number: usize,
    pub place: usize,
    pub bytes: usize,
}

#[derive(Clone, Copy, Debug, PartialEq, Eq)]
pub struct Got {
    pub number: usize,
    pub place: usize,
    pub vertices: usize,
    pub triangles: usize,
    pub sizes: [usize; 3],
}

/// What a sheet file holds.
#[derive(Clone, Debug, PartialEq, Eq)]
pub struct Content {
    pub sizes: [usize; 3],
    pub records: Vec<[i32; 4]>,
    pub triangles: Vec<[u32; 3]>,
}

fn good_axes(sizes: [usize; 3]) -> bool {
    sizes.iter().all(|axis| (2..=64).contains(axis))
}

/// The first triangle with an index that is not below V.
fn stray_index(vertices: usize, triangles: &[[u32; 3]]) -> Option<usize> {
    triangles.iter().position(|triangle| triangle.iter().any(|&index| index as usize >= vertices))
}

/// The bytes of a file.
pub fn serialize(content: &Content) -> Vec<u8> {
    let mut bytes: Vec<u8> = content.records.iter().flatten().flat_map(|word| word.to_le_bytes()).collect();
    bytes.extend(content.triangles.iter().flatten().flat_map(|word| word.to_le_bytes()));
    let (v, t) = (content.records.len() as u32, content.triangles.len() as u32);
    bytes.extend([16 * v + 12 * t, v, 12 * t, t].iter().flat_map(|word| word.to_le_bytes()));
    bytes.extend(content.sizes.iter().flat_map(|&axis| (axis as u16).to_le_bytes()));
    bytes.extend(MARK.to_le_bytes());
    bytes
}

/// The whole groups of N at the front of a slice, as many as asked for.
fn groups<T: Copy, const N: usize>(slice: &[T], count: usize) -> Vec<[T; N]> {
    let group = |part: &[T]| std::array::from_fn(|i| part[i]);
    slice.chunks_exact(N).take(count).map(group).collect()
}

pub fn write(sizes: [usize; 3], nv: usize, nt: usize, vertices: &[i32], triangles: &[u32], bytes: &mut [u8]) -> Wrote {
    let refused = |number, place| Wrote { number, place, bytes: 0 };
    if !good_axes(sizes) {
        return refused(1, 0);
    }
    if nv > vertices.len() / 4 || nt > triangles.len() / 3 || nv > MOST_VERTICES || nt > MOST_TRIANGLES {
        return refused(9, 0);
    }
    let content = Content { sizes, records: groups(vertices, nv), triangles: groups(triangles, nt) };
    if let Some(place) = stray_index(nv, &content.triangles) {
        return refused(15, place);
    }
    let file = serialize(&content);
    if bytes.len() < file.len() {
        return refused(8, 0);
    }
    overwrite(bytes, &file);
    Wrote { number: 0, place: 0, bytes: file.len() }
}

/// Little-endian 32-bit words.
fn words(bytes: &[u8]) -> Vec<u32> {
    bytes.chunks_exact(4).map(|b| u32::from_le_bytes([b[0], b[1], b[2], b[3]])).collect()
}

/// The tests 11, 12, 1, 14, 15, and what the file holds; a refusal is a number and a place.
pub fn parse(bytes: &[u8]) -> Result<Content, (usize, usize)> {
    let Some((body, trailer)) = bytes.len().checked_sub(24).map(|at| bytes.split_at(at)) else {
        return Err((11, 0));
    };
    let (long, short) = trailer.split_at(16);
    let [to_vertices, v, to_triangles, t]: [u64; 4] = std::array::from_fn(|i| u64::from(words(long)[i]));
    let [nx, ny, nz, mark]: [usize; 4] =
        std::array::from_fn(|i| usize::from(u16::from_le_bytes([short[2 * i], short[2 * i + 1]])));
    let sizes = [nx, ny, nz];
    if mark != usize::from(MARK) {
        return Err((12, 0));
    }
    if !good_axes(sizes) {
        return Err((1, 0));
    }
    let within = v <= MOST_VERTICES as u64 && t <= MOST_TRIANGLES as u64;
    if !within || to_vertices != 16 * v + 12 * t || to_triangles != 12 * t || body.len() as u64 != 16 * v + 12 * t {
        return Err((14, 0));
    }
    let (front, back) = body.split_at(body.len() - to_triangles as usize);
    let numbers: Vec<i32> = words(front).into_iter().map(|word| word as i32).collect();
    let content = Content { sizes, records: groups(&numbers, v as usize), triangles: groups(&words(back), t as usize) };
    match stray_index(content.records.len(), &content.triangles) {
        Some(place) => Err((15, place)),
        None => Ok(content),
    }
}

pub fn read(bytes: &[u8], vertices: &mut [i32], triangles: &mut [u32]) -> Got {
    let refused = |number, place| Got { number, place, vertices: 0, triangles: 0, sizes: [0; 3] };
    let content = match parse(bytes) {
        Ok(content) => content,
        Err((number, place)) => return refused(number, place),
    };
    if content.records.len() > vertices.len() / 4 {
        return refused(6, 0);
    }
    if content.triangles.len() > triangles.len() / 3 {
        return refused(7, 0);
    }
    overwrite(vertices, &content.records.concat());
    overwrite(triangles, &content.triangles.concat());
    let (v, t) = (content.records.len(), content.triangles.len());
    Got { number: 0, place: 0, vertices: v, triangles: t, sizes: content.sizes }
}
