//! What the proved library is measured against, over slices: the hand-written C mesher, `second.c`, and plain C loops for STL,
//! `stl.c`, and for volumes in f32, `floats.c`.

use std::sync::Once;

/// The compiler and the level that the C files were compiled by.
pub const COMPILER: &str = env!("BASELINE_COMPILER");

#[repr(C)]
#[derive(Clone, Copy)]
struct Answer {
    number: i32,
    vertices: u32,
    triangles: u32,
    cubes: u32,
}

extern "C" {
    fn second_init();
    #[rustfmt::skip]
    fn second_build(
        size: *const u16,
        samples: *const i16,
        sample_count: usize,
        from: u32,
        start: *const u16,
        words: *mut u16,
        word_count: usize,
        waiting: *mut u32,
        waiting_count: usize,
        slots: *mut u32,
        slot_count: usize,
        vertices: *mut i32,
        vertex_count: usize,
        triangles: *mut u32,
        triangle_count: usize,
    ) -> Answer;
    #[rustfmt::skip]
    fn plain_stl_write(
        nv: usize,
        nt: usize,
        vertices: *const i32,
        vertex_count: usize,
        triangles: *const u32,
        triangle_count: usize,
        bytes: *mut u8,
        byte_count: usize,
    ) -> StlAnswer;
    fn plain_stl_read(bytes: *const u8, byte_count: usize, corners: *mut i32, corner_count: usize) -> StlAnswer;
    #[rustfmt::skip]
    fn plain_convert(
        halfway: i32,
        grey: f32,
        material: f32,
        scale: u32,
        voxels: *const f32,
        voxel_count: usize,
        samples: *mut i16,
        sample_count: usize,
    ) -> FloatsAnswer;
}

/// The refusal number and its place.
#[repr(C)]
#[derive(Clone, Copy)]
struct FloatsAnswer {
    number: usize,
    place: usize,
}

/// The refusal number, its place, and what was written: bytes, or facets.
#[repr(C)]
#[derive(Clone, Copy, Debug, PartialEq, Eq)]
pub struct StlAnswer {
    pub number: usize,
    pub place: usize,
    pub count: usize,
}

/// Where a sheet starts: none named, the lowest crossed cube by name, or a cube.
#[derive(Clone, Copy, Debug)]
pub enum Start {
    Unnamed,
    Lowest,
    Cube([u16; 3]),
}

/// What is lent: outputs and work room.
pub struct Lent<'a> {
    pub vertices: &'a mut [i32],
    pub triangles: &'a mut [u32],
    pub words: &'a mut [u16],
    pub waiting: &'a mut [u32],
    pub slots: &'a mut [u32],
}

/// Builds; answers the refusal number, and the counts of vertices, triangles and cubes.
pub fn build(sizes: [u16; 3], start: Start, samples: &[i16], lent: Lent) -> [usize; 4] {
    static TABLES: Once = Once::new();
    // SAFETY: it fills its own tables, and `Once` lets it run alone.
    TABLES.call_once(|| unsafe { second_init() });
    let (from, cube) = match start {
        Start::Unnamed => (0, [0; 3]),
        Start::Lowest => (1, [0; 3]),
        Start::Cube(cube) => (2, cube),
    };
    // SAFETY: each pointer comes with the length of its slice, and the slices are lent for the call alone.
    #[rustfmt::skip]
    let answer = unsafe {
        second_build(
            sizes.as_ptr(), samples.as_ptr(), samples.len(), from, cube.as_ptr(),
            lent.words.as_mut_ptr(), lent.words.len(), lent.waiting.as_mut_ptr(), lent.waiting.len(),
            lent.slots.as_mut_ptr(), lent.slots.len(), lent.vertices.as_mut_ptr(), lent.vertices.len(),
            lent.triangles.as_mut_ptr(), lent.triangles.len(),
        )
    };
    [answer.number as usize, answer.vertices as usize, answer.triangles as usize, answer.cubes as usize]
}

pub fn stl_write(nv: usize, nt: usize, vertices: &[i32], triangles: &[u32], bytes: &mut [u8]) -> StlAnswer {
    let (v, t, b) = (vertices.as_ptr(), triangles.as_ptr(), bytes.as_mut_ptr());
    // SAFETY: each pointer comes with the length of its slice, and the slices are lent for the call alone.
    unsafe { plain_stl_write(nv, nt, v, vertices.len(), t, triangles.len(), b, bytes.len()) }
}

pub fn stl_read(bytes: &[u8], corners: &mut [i32]) -> StlAnswer {
    // SAFETY: as above.
    unsafe { plain_stl_read(bytes.as_ptr(), bytes.len(), corners.as_mut_ptr(), corners.len()) }
}

/// Answers the refusal number and its place.
pub fn convert(halfway: bool, grey: f32, material: f32, scale: u32, voxels: &[f32], samples: &mut [i16]) -> [usize; 2] {
    let (from, to) = (voxels.as_ptr(), samples.as_mut_ptr());
    // SAFETY: as above.
    let answer = unsafe { plain_convert(halfway.into(), grey, material, scale, from, voxels.len(), to, samples.len()) };
    [answer.number, answer.place]
}
