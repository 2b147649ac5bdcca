//! Sheet files as they are, shuffled, turned, and damaged in many ways.

use crate::random::Random;
use second::{serialize, Content};

/// The same sheet in another order: records shuffled with the indices that name them, triangles shuffled and turned.
/// An index that names no record stays.
pub fn shuffle(random: &mut Random, content: &mut Content) {
    let mut order: Vec<usize> = (0..content.records.len()).collect();
    random.shuffle(&mut order);
    content.records = order.iter().map(|&old| content.records[old]).collect();
    let mut new = vec![0; order.len()];
    order.iter().enumerate().for_each(|(now, &old)| new[old] = now as u32);
    for triangle in &mut content.triangles {
        *triangle = triangle.map(|index| new.get(index as usize).copied().unwrap_or(index));
        triangle.rotate_left(random.below(3));
    }
    random.shuffle(&mut content.triangles);
}

/// One wrong thing in what a file says, still laid out as a file.
fn spoil(random: &mut Random, content: &mut Content) {
    let (v, t) = (content.records.len(), content.triangles.len());
    if v == 0 || t == 0 {
        return content.records.push([0; 4]);
    }
    let (record, triangle) = (random.below(v), random.below(t));
    let (other, index) = (random.below(v), random.below(3));
    match random.below(15) {
        0 => content.triangles[triangle].swap(0, 1),
        1 => content.triangles.insert(random.below(t + 1), content.triangles[triangle]),
        2 => content.records.push(content.records[record]),
        3 => drop(content.triangles.remove(triangle)),
        4 => content.triangles[triangle][index] = other as u32,
        5 => content.triangles[triangle][index] = random.pick(&[v as u32, u32::MAX, 1 << 31]),
        6 => content.records[record][1 + index] += random.pick(&[-1, 1]),
        7 => content.records[record][0] = random.pick(&[-1, i32::MIN, i32::MAX, 0, content.records[record][0] + 1]),
        8 => content.records[record] = content.records[other],
        9 => content.records.swap(record, other),
        10 => content.sizes.rotate_left(1 + random.below(2)),
        11 => content.sizes[index] = random.pick(&[0, 1, 2, 3, 64, 65, 65_535]),
        12 => content.triangles.clear(),
        13 => {
            // a record left out, with the triangles that need it
            let last = v as u32 - 1;
            content.records.pop();
            content.triangles.retain(|triangle| !triangle.contains(&last));
        }
        _ => content.triangles[triangle] = [record as u32, other as u32, record as u32],
    }
}

/// Bytes cut, added or changed.
fn corrupt(random: &mut Random, bytes: &mut Vec<u8>) {
    let length = bytes.len();
    match random.below(6) {
        0 => bytes.truncate(random.below(length + 1)),
        1 => bytes.truncate(length.saturating_sub(1 + random.below(30))),
        2 => bytes.extend((0..1 + random.below(40)).map(|n| n as u8)),
        3 => drop(bytes.drain(..random.below(length + 1))),
        4 if length >= 24 => bytes[length - 1 - random.below(24)] ^= 1 << random.below(8),
        _ => (0..1 + random.below(4)).for_each(|_| {
            if length > 0 {
                bytes[random.below(length)] = random.bits() as u8;
            }
        }),
    }
}

/// Random bytes, perhaps with a fair trailer.
fn junk(random: &mut Random) -> Vec<u8> {
    let mut bytes: Vec<u8> = (0..random.below(120)).map(|_| random.bits() as u8).collect();
    if random.once_in(2) {
        let counts =
            [(); 2].map(|_| random.pick(&[0, 1, 2, 2_000_000, 2_000_001, 4_000_000, 4_000_001, u32::MAX, 1 << 28]));
        let [v, t] = counts;
        let distances = [16u32.wrapping_mul(v).wrapping_add(12u32.wrapping_mul(t)), v, 12u32.wrapping_mul(t), t];
        bytes.extend(distances.iter().flat_map(|word| word.to_le_bytes()));
        bytes.extend([2u16, 2, 2, 21_331].iter().flat_map(|word| word.to_le_bytes()));
    }
    bytes
}

/// A file made from a sheet: good or bad.
pub fn file(random: &mut Random, content: &Content) -> Vec<u8> {
    let mut content = content.clone();
    if random.once_in(2) {
        shuffle(random, &mut content);
    }
    match random.below(10) {
        0..=2 => serialize(&content),
        3..=7 => {
            spoil(random, &mut content);
            serialize(&content)
        }
        8 => {
            let mut bytes = serialize(&content);
            corrupt(random, &mut bytes);
            bytes
        }
        _ => junk(random),
    }
}

/// A file that no volume stands behind: any numbers, indices mostly below V.
pub fn free_content(random: &mut Random) -> Content {
    let (v, t) = (random.below(12), random.below(12));
    let records = (0..v).map(|_| [(); 4].map(|_| random.bits() as i32)).collect();
    let index = |random: &mut Random| if random.once_in(60) { v as u32 } else { random.below(v.max(1)) as u32 };
    let triangles = (0..t).map(|_| [(); 3].map(|_| index(random))).collect();
    let sizes =
        [(); 3].map(|_| if random.once_in(40) { random.pick(&[0, 1, 65, 65_535]) } else { 2 + random.below(63) });
    Content { sizes, records, triangles }
}

/// Damage to a volume file.
pub fn volume_file(random: &mut Random, mut bytes: Vec<u8>) -> Vec<u8> {
    if random.once_in(4) {
        corrupt(random, &mut bytes);
    }
    bytes
}
