//! The library linked into this program. All of the host's unsafe code stands here.

use super::{Built, Found, Got, Lattice, Level, Loaded, Place, Rule, Sizes, Verdict, Work, Wrote};

extern "C" {
    #[rustfmt::skip]
    fn malxuqeed_build(
        sizes: Sizes,
        from: u32,
        start: Place,
        samples: *const i16,
        samples_len: usize,
        vertices: *mut i32,
        vertices_len: usize,
        triangles: *mut u32,
        triangles_len: usize,
        words: *mut u16,
        words_len: usize,
        waiting: *mut u32,
        waiting_len: usize,
        slots: *mut u32,
        slots_len: usize,
    ) -> Built;
    #[rustfmt::skip]
    fn malxuqeed_write(
        sizes: Sizes,
        nv: usize,
        nt: usize,
        vertices: *const i32,
        vertices_len: usize,
        triangles: *const u32,
        triangles_len: usize,
        bytes: *mut u8,
        bytes_len: usize,
    ) -> Wrote;
    #[rustfmt::skip]
    fn malxuqeed_read(
        bytes: *const u8,
        bytes_len: usize,
        vertices: *mut i32,
        vertices_len: usize,
        triangles: *mut u32,
        triangles_len: usize,
    ) -> Got;
    #[rustfmt::skip]
    fn malxuqeed_check(
        sizes: Sizes,
        from: u32,
        start: Place,
        rule: u32,
        samples: *const i16,
        samples_len: usize,
        bytes: *const u8,
        bytes_len: usize,
        words: *mut u16,
        words_len: usize,
        waiting: *mut u32,
        waiting_len: usize,
        slots: *mut u32,
        slots_len: usize,
    ) -> Verdict;
    #[rustfmt::skip]
    fn malxuqeed_stl_write(
        nv: usize,
        nt: usize,
        vertices: *const i32,
        vertices_len: usize,
        triangles: *const u32,
        triangles_len: usize,
        bytes: *mut u8,
        bytes_len: usize,
    ) -> Wrote;
    #[rustfmt::skip]
    fn malxuqeed_stl_read(bytes: *const u8, bytes_len: usize, corners: *mut i32, corners_len: usize) -> Loaded;
    #[rustfmt::skip]
    fn malxuqeed_convert(
        halfway: bool,
        grey: f32,
        material: f32,
        scale: u32,
        voxels: *const f32,
        voxels_len: usize,
        samples: *mut i16,
        samples_len: usize,
    ) -> Verdict;
    #[rustfmt::skip]
    fn malxuqeed_pieces(
        sizes: Sizes,
        samples: *const i16,
        samples_len: usize,
        list: *mut u32,
        list_len: usize,
        words: *mut u16,
        words_len: usize,
        waiting: *mut u32,
        waiting_len: usize,
        slots: *mut u32,
        slots_len: usize,
    ) -> Found;
}

// SAFETY of all calls: the functions have no conditions of their own; each pointer is that of a slice, passed
// with the slice's length; and no two slices overlap, since Rust lends them apart.

#[rustfmt::skip]
pub fn build(lattice: Lattice, vertices: &mut [i32], triangles: &mut [u32], work: Work) -> Built {
    let Lattice { sizes, start, samples } = lattice;
    let (from, cube) = start.told();
    let Work { words, waiting, slots } = work;
    unsafe {
        malxuqeed_build(
            sizes, from, cube, samples.as_ptr(), samples.len(),
            vertices.as_mut_ptr(), vertices.len(), triangles.as_mut_ptr(), triangles.len(),
            words.as_mut_ptr(), words.len(), waiting.as_mut_ptr(), waiting.len(), slots.as_mut_ptr(), slots.len(),
        )
    }
}

#[rustfmt::skip]
pub fn write(sizes: Sizes, nv: usize, nt: usize, vertices: &[i32], triangles: &[u32], bytes: &mut [u8]) -> Wrote {
    unsafe {
        malxuqeed_write(
            sizes, nv, nt, vertices.as_ptr(), vertices.len(),
            triangles.as_ptr(), triangles.len(), bytes.as_mut_ptr(), bytes.len(),
        )
    }
}

#[rustfmt::skip]
pub fn read(bytes: &[u8], vertices: &mut [i32], triangles: &mut [u32]) -> Got {
    unsafe {
        malxuqeed_read(
            bytes.as_ptr(), bytes.len(), vertices.as_mut_ptr(), vertices.len(),
            triangles.as_mut_ptr(), triangles.len(),
        )
    }
}

#[rustfmt::skip]
pub fn check(rule: Rule, lattice: Lattice, bytes: &[u8], work: Work) -> Verdict {
    let Lattice { sizes, start, samples } = lattice;
    let (from, cube) = start.told();
    let Work { words, waiting, slots } = work;
    unsafe {
        malxuqeed_check(
            sizes, from, cube, rule.told(), samples.as_ptr(), samples.len(),
            bytes.as_ptr(), bytes.len(),
            words.as_mut_ptr(), words.len(), waiting.as_mut_ptr(), waiting.len(), slots.as_mut_ptr(), slots.len(),
        )
    }
}

#[rustfmt::skip]
pub fn stl_write(nv: usize, nt: usize, vertices: &[i32], triangles: &[u32], bytes: &mut [u8]) -> Wrote {
    unsafe {
        malxuqeed_stl_write(
            nv, nt, vertices.as_ptr(), vertices.len(),
            triangles.as_ptr(), triangles.len(), bytes.as_mut_ptr(), bytes.len(),
        )
    }
}

#[rustfmt::skip]
pub fn stl_read(bytes: &[u8], corners: &mut [i32]) -> Loaded {
    unsafe { malxuqeed_stl_read(bytes.as_ptr(), bytes.len(), corners.as_mut_ptr(), corners.len()) }
}

#[rustfmt::skip]
pub fn convert(level: Level, scale: u32, voxels: &[f32], samples: &mut [i16]) -> Verdict {
    let (halfway, grey, material) = level.parts();
    unsafe {
        malxuqeed_convert(
            halfway, grey, material, scale, voxels.as_ptr(), voxels.len(), samples.as_mut_ptr(), samples.len(),
        )
    }
}

#[rustfmt::skip]
pub fn pieces(sizes: Sizes, samples: &[i16], list: &mut [u32], work: Work) -> Found {
    let Work { words, waiting, slots } = work;
    unsafe {
        malxuqeed_pieces(
            sizes, samples.as_ptr(), samples.len(), list.as_mut_ptr(), list.len(),
            words.as_mut_ptr(), words.len(), waiting.as_mut_ptr(), waiting.len(), slots.as_mut_ptr(), slots.len(),
        )
    }
}
