//! The library in a process of its own, under the emulator: for a processor that its code is not for.
//!
//! A call sends its numbers and a copy of each slice, and takes back the answer and each slice as the call left it.
//! The process (`bridge/serve.c`) puts guard bytes round every slice and says whether they and the slices that are
//! only read are unchanged. Each thread has a process; it ends with the thread.

use super::{Built, Found, Got, Lattice, Level, Loaded, Rule, Sizes, Verdict, Work, Wrote};
use std::cell::RefCell;
use std::io::{self, Read, Write};
use std::process::{exit, Child, ChildStdin, ChildStdout, Command, Stdio};

const EMULATOR: &str = env!("MALXUQEED_EMULATOR");
const SERVER: &str = env!("MALXUQEED_SERVER");

/// Numbers of a request besides the slices' lengths, and of an answer.
const ASKED: usize = 9;
const ANSWERED: usize = 8;

/// Fixed-width numbers as bytes.
trait Word: Copy {
    const WIDTH: usize;
    fn put(self, bytes: &mut Vec<u8>);
    fn get(bytes: &[u8]) -> Self;
}

macro_rules! word {
    ($($kind:ty)*) => {$(
        impl Word for $kind {
            const WIDTH: usize = std::mem::size_of::<$kind>();
            fn put(self, bytes: &mut Vec<u8>) {
                bytes.extend_from_slice(&self.to_le_bytes());
            }
            fn get(bytes: &[u8]) -> $kind {
                let mut own = [0; std::mem::size_of::<$kind>()];
                own.copy_from_slice(bytes);
                <$kind>::from_le_bytes(own)
            }
        }
    )*};
}
word!(u8 u16 i16 u32 i32 f32);

/// A lent slice of any width.
trait Lent {
    fn bytes(&self) -> Vec<u8>;
    /// Takes what the call left. A slice that is only read has stayed as it was.
    fn take(&mut self, bytes: &[u8]);
}

impl<T: Word> Lent for &[T] {
    fn bytes(&self) -> Vec<u8> {
        let mut bytes = Vec::with_capacity(self.len() * T::WIDTH);
        self.iter().for_each(|word| word.put(&mut bytes));
        bytes
    }

    fn take(&mut self, bytes: &[u8]) {
        if self.bytes() != bytes {
            stop("the library changed a slice that it was lent to read");
        }
    }
}

impl<T: Word> Lent for &mut [T] {
    fn bytes(&self) -> Vec<u8> {
        (&**self).bytes()
    }

    fn take(&mut self, bytes: &[u8]) {
        for (word, new) in self.iter_mut().zip(bytes.chunks_exact(T::WIDTH)) {
            *word = T::get(new);
        }
    }
}

struct Server {
    child: Child,
    to: ChildStdin,
    from: ChildStdout,
}

impl Server {
    fn start() -> io::Result<Server> {
        let mut child = Command::new(EMULATOR).arg(SERVER).stdin(Stdio::piped()).stdout(Stdio::piped()).spawn()?;
        match (child.stdin.take(), child.stdout.take()) {
            (Some(to), Some(from)) => Ok(Server { child, to, from }),
            _ => Err(io::Error::other("no pipes")),
        }
    }

    fn call(&mut self, asked: [usize; ASKED], slices: &mut [&mut dyn Lent]) -> io::Result<[usize; ANSWERED]> {
        let contents: Vec<Vec<u8>> = slices.iter().map(|slice| slice.bytes()).collect();
        let mut head = Vec::new();
        for number in asked.into_iter().chain([contents.len()]).chain(contents.iter().map(Vec::len)) {
            head.extend_from_slice(&(number as u64).to_le_bytes());
        }
        self.to.write_all(&head)?;
        for content in &contents {
            self.to.write_all(content)?;
        }
        self.to.flush()?;

        let mut answered = [0; ANSWERED];
        for number in &mut answered {
            let mut bytes = [0; 8];
            self.from.read_exact(&mut bytes)?;
            *number = u64::from_le_bytes(bytes) as usize;
        }
        for (slice, mut content) in slices.iter_mut().zip(contents) {
            self.from.read_exact(&mut content)?;
            slice.take(&content);
        }
        Ok(answered)
    }
}

impl Drop for Server {
    fn drop(&mut self) {
        let _ = self.child.kill();
        let _ = self.child.wait();
    }
}

fn stop(why: &str) -> ! {
    eprintln!("malxuqeed: {why}");
    exit(2)
}

/// One call of a function, by its number in the bridge: its numbers, its slices in the order of its parameters.
fn call(asked: [usize; ASKED], slices: &mut [&mut dyn Lent]) -> [usize; ANSWERED] {
    thread_local!(static SERVER: RefCell<Option<Server>> = const { RefCell::new(None) });
    let answered = SERVER.with(|own| {
        let mut own = own.borrow_mut();
        if own.is_none() {
            *own = Some(Server::start()?);
        }
        match own.as_mut() {
            Some(server) => server.call(asked, slices),
            None => Err(io::Error::other("not started")),
        }
    });
    match answered {
        Ok(answered) if answered[ANSWERED - 1] == 1 => answered,
        Ok(_) => stop("the library wrote beside a slice"),
        Err(error) => stop(&format!("the emulated library does not answer: {error}")),
    }
}

fn about(function: usize, lattice: &Lattice) -> [usize; ASKED] {
    let (Sizes { nx, ny, nz }, (from, cube)) = (lattice.sizes, lattice.start.told());
    [function, nx, ny, nz, from as usize, cube.x, cube.y, cube.z, 0]
}

pub fn build(mut lattice: Lattice, mut vertices: &mut [i32], mut triangles: &mut [u32], mut work: Work) -> Built {
    let [number, vertices, triangles, cubes, ..] = call(
        about(0, &lattice),
        &mut [&mut lattice.samples, &mut vertices, &mut triangles, &mut work.words, &mut work.waiting, &mut work.slots],
    );
    Built { number, vertices, triangles, cubes }
}

pub fn write(
    sizes: Sizes,
    nv: usize,
    nt: usize,
    mut vertices: &[i32],
    mut triangles: &[u32],
    mut bytes: &mut [u8],
) -> Wrote {
    let Sizes { nx, ny, nz } = sizes;
    let asked = [1, nx, ny, nz, nv, nt, 0, 0, 0];
    let [number, place, bytes, ..] = call(asked, &mut [&mut vertices, &mut triangles, &mut bytes]);
    Wrote { number, place, bytes }
}

pub fn read(mut bytes: &[u8], mut vertices: &mut [i32], mut triangles: &mut [u32]) -> Got {
    let [number, place, vertices, triangles, nx, ny, nz, _] =
        call([2, 0, 0, 0, 0, 0, 0, 0, 0], &mut [&mut bytes, &mut vertices, &mut triangles]);
    Got { number, place, vertices, triangles, sizes: Sizes { nx, ny, nz } }
}

pub fn check(rule: Rule, mut lattice: Lattice, mut bytes: &[u8], mut work: Work) -> Verdict {
    let mut asked = about(3, &lattice);
    asked[ASKED - 1] = rule.told() as usize;
    let [number, place, ..] = call(
        asked,
        &mut [&mut lattice.samples, &mut bytes, &mut work.words, &mut work.waiting, &mut work.slots],
    );
    Verdict { number, place }
}

pub fn stl_write(nv: usize, nt: usize, mut vertices: &[i32], mut triangles: &[u32], mut bytes: &mut [u8]) -> Wrote {
    let [number, place, bytes, ..] = call([4, nv, nt, 0, 0, 0, 0, 0, 0], &mut [&mut vertices, &mut triangles, &mut bytes]);
    Wrote { number, place, bytes }
}

pub fn stl_read(mut bytes: &[u8], mut corners: &mut [i32]) -> Loaded {
    let [number, place, facets, ..] = call([5, 0, 0, 0, 0, 0, 0, 0, 0], &mut [&mut bytes, &mut corners]);
    Loaded { number, place, facets }
}

pub fn convert(level: Level, scale: u32, mut voxels: &[f32], mut samples: &mut [i16]) -> Verdict {
    let (halfway, grey, material) = level.parts();
    let [grey, material] = [grey, material].map(|grey| grey.to_bits() as usize);
    let asked = [6, halfway.into(), grey, material, scale as usize, 0, 0, 0, 0];
    let [number, place, ..] = call(asked, &mut [&mut voxels, &mut samples]);
    Verdict { number, place }
}

pub fn pieces(sizes: Sizes, mut samples: &[i16], mut list: &mut [u32], mut work: Work) -> Found {
    let Sizes { nx, ny, nz } = sizes;
    let [number, pieces, ..] = call(
        [7, nx, ny, nz, 0, 0, 0, 0],
        &mut [&mut samples, &mut list, &mut work.words, &mut work.waiting, &mut work.slots],
    );
    Found { number, pieces }
}
