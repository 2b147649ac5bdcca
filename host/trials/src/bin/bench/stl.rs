//! STL: the library's writer and reader beside plain C loops with the same tests (`stl.c`).

use crate::rows::{ms, time};
use host::abi;
use std::time::Duration;

/// A sheet, room for its file and for its corners, and the shortest time of each call.
pub struct Stl {
    vertices: Vec<i32>,
    triangles: Vec<u32>,
    bytes: Vec<u8>,
    corners: Vec<i32>,
    c_write: Duration,
    write: Duration,
    c_read: Duration,
    read: Duration,
}

pub const HEADER: &str =
    "\nSTL        facets  stl.c write ms  write ms  write/stl.c  stl.c read ms   read ms  read/stl.c";

impl Stl {
    pub fn new(vertices: &[i32], triangles: &[u32]) -> Stl {
        let (facets, longest) = (triangles.len() / 3, Duration::MAX);
        Stl {
            vertices: vertices.to_vec(),
            triangles: triangles.to_vec(),
            bytes: vec![1; 84 + 50 * facets],
            corners: vec![1; 9 * facets],
            c_write: longest,
            write: longest,
            c_read: longest,
            read: longest,
        }
    }

    fn c_writes(&mut self) -> baseline::StlAnswer {
        let (nv, nt) = (self.vertices.len() / 4, self.triangles.len() / 3);
        baseline::stl_write(nv, nt, &self.vertices, &self.triangles, &mut self.bytes)
    }

    fn writes(&mut self) -> abi::Wrote {
        let (nv, nt) = (self.vertices.len() / 4, self.triangles.len() / 3);
        abi::stl_write(nv, nt, &self.vertices, &self.triangles, &mut self.bytes)
    }

    /// Library and C loops must agree on the file and on what is read back before their times mean anything.
    pub fn agree(&mut self) -> bool {
        let (wrote, got) = (self.c_writes(), baseline::stl_read(&self.bytes, &mut self.corners));
        let (bytes, corners) = (self.bytes.clone(), self.corners.clone());
        self.clear();
        let (by_library, loaded) = (self.writes(), abi::stl_read(&bytes, &mut self.corners));
        (wrote.number, wrote.count, got.number, got.count) == (0, by_library.bytes, 0, loaded.facets)
            && (by_library.number, loaded.number) == (0, 0)
            && (bytes, corners) == (self.bytes.clone(), self.corners.clone())
    }

    fn clear(&mut self) {
        self.bytes.fill(0);
        self.corners.fill(0);
    }

    pub fn measure(&mut self) {
        let [mut c_write, mut write, mut c_read, mut read] = [self.c_write, self.write, self.c_read, self.read];
        self.clear();
        time(&mut c_write, || self.c_writes());
        time(&mut c_read, || baseline::stl_read(&self.bytes, &mut self.corners));
        self.clear();
        time(&mut write, || self.writes());
        time(&mut read, || abi::stl_read(&self.bytes, &mut self.corners));
        [self.c_write, self.write, self.c_read, self.read] = [c_write, write, c_read, read];
    }

    pub fn row(&self, name: &str) -> String {
        let facets = self.triangles.len() / 3;
        let [c_write, write, c_read, read] = [self.c_write, self.write, self.c_read, self.read].map(ms);
        let (by_write, by_read) = (write / c_write, read / c_read);
        format!("{name:6} {facets:10}  {c_write:14.3}  {write:8.3}  {by_write:11.2}  {c_read:13.3}  {read:8.3}  {by_read:10.2}")
    }
}
