//! The lines of vertices and triangles that a listing has.

use std::io::{self, Write};

/// A `v` line for each record of four numbers, a `t` line for each triangle of three.
pub fn print(out: &mut dyn Write, vertices: &[i32], triangles: &[u32]) -> io::Result<()> {
    for record in vertices.chunks_exact(4) {
        writeln!(out, "v {} {} {} {}", record[0], record[1], record[2], record[3])?;
    }
    for triangle in triangles.chunks_exact(3) {
        writeln!(out, "t {} {} {}", triangle[0], triangle[1], triangle[2])?;
    }
    Ok(())
}
