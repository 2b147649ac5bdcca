//! Sheets in memory: as the library builds them, and as it reads them from a file.

use crate::abi::{self, Built, Sizes, Start, Verdict};
use crate::room::{self, Room};
use crate::volume::Volume;

/// Vertex records of four numbers, triangles of three.
#[derive(Clone, Debug, Default, PartialEq, Eq)]
pub struct Sheet {
    pub sizes: Sizes,
    pub vertices: Vec<i32>,
    pub triangles: Vec<u32>,
}

impl Sheet {
    /// What a file holds, or the refusal of reading it.
    pub fn read(bytes: &[u8]) -> Result<Sheet, Verdict> {
        // No file has more records than these: refusals 6 and 7 cannot come.
        let mut vertices = vec![0; bytes.len() / 16 * 4];
        let mut triangles = vec![0; bytes.len() / 12 * 3];
        let got = abi::read(bytes, &mut vertices, &mut triangles);
        if got.number != 0 {
            return Err(Verdict { number: got.number, place: got.place });
        }
        vertices.truncate(4 * got.vertices);
        triangles.truncate(3 * got.triangles);
        Ok(Sheet { sizes: got.sizes, vertices, triangles })
    }

    /// Builds with room for the largest sheet of the lattice.
    pub fn build(volume: &Volume, start: Start, room: &mut Room) -> (Built, Sheet) {
        let mut vertices = vec![0; room::vertex_numbers(volume.sizes)];
        let mut triangles = vec![0; room::triangle_numbers(volume.sizes)];
        let built = abi::build(volume.from(start), &mut vertices, &mut triangles, room.lend(volume.sizes));
        let written = if built.number == 0 { (4 * built.vertices, 3 * built.triangles) } else { (0, 0) };
        vertices.truncate(written.0);
        triangles.truncate(written.1);
        (built, Sheet { sizes: volume.sizes, vertices, triangles })
    }

    /// The bytes of its file, or the writer's refusal.
    pub fn file(&self) -> Result<Vec<u8>, usize> {
        let counts = [self.vertices.len() / 4, self.triangles.len() / 3];
        file(self.sizes, counts, &self.vertices, &self.triangles)
    }

    pub fn records(&self) -> impl Iterator<Item = [i32; 4]> + '_ {
        self.vertices.chunks_exact(4).map(|record| [record[0], record[1], record[2], record[3]])
    }

    /// The triangles by vertex numbers.
    pub fn corners(&self) -> impl Iterator<Item = [u32; 3]> + '_ {
        self.triangles.chunks_exact(3).map(|triangle| [triangle[0], triangle[1], triangle[2]])
    }

    /// A vertex record; the library reads no file with a triangle that names another.
    pub fn record(&self, vertex: u32) -> [i32; 4] {
        let at = 4 * vertex as usize;
        [self.vertices[at], self.vertices[at + 1], self.vertices[at + 2], self.vertices[at + 3]]
    }

    /// The triangles by lattice edges.
    pub fn by_edges(&self) -> impl Iterator<Item = [i32; 3]> + '_ {
        self.corners().map(|triangle| triangle.map(|vertex| self.record(vertex)[0]))
    }
}

/// The bytes of a file with so many vertices and triangles, or the writer's refusal.
fn file(sizes: Sizes, [nv, nt]: [usize; 2], vertices: &[i32], triangles: &[u32]) -> Result<Vec<u8>, usize> {
    let mut bytes = vec![0; 16 * nv + 12 * nt + 24];
    let wrote = abi::write(sizes, nv, nt, vertices, triangles, &mut bytes);
    if wrote.number != 0 {
        return Err(wrote.number);
    }
    bytes.truncate(wrote.bytes);
    Ok(bytes)
}

/// Room for the largest sheet of a lattice, which serves one sheet after another.
pub struct Output {
    vertices: Vec<i32>,
    triangles: Vec<u32>,
}

impl Output {
    pub fn new(sizes: Sizes) -> Output {
        Output { vertices: vec![0; room::vertex_numbers(sizes)], triangles: vec![0; room::triangle_numbers(sizes)] }
    }

    /// Builds a sheet of a volume with these sizes; its file, or the refusal.
    pub fn build(&mut self, volume: &Volume, start: Start, room: &mut Room) -> Result<(Built, Vec<u8>), usize> {
        let lattice = volume.from(start);
        let built = abi::build(lattice, &mut self.vertices, &mut self.triangles, room.lend(volume.sizes));
        if built.number != 0 {
            return Err(built.number);
        }
        let bytes = file(volume.sizes, [built.vertices, built.triangles], &self.vertices, &self.triangles)?;
        Ok((built, bytes))
    }
}
