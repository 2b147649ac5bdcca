//! How much stack a call takes: the stack below is painted, the call is made, and the lowest word that is no longer paint is found.

use std::ptr::{with_exposed_provenance, with_exposed_provenance_mut};

/// How much is painted, and the stack of a thread that measures, which is larger by far.
const PAINTED: usize = 256 << 10;
const THREAD: usize = 4 << 20;

/// So many bytes below a place in the frame that paints stay unpainted, since the rest of that frame is among them.
pub const NEAR: usize = 512;

const PAINT: u64 = 0xa5c3_5a3c_96f0_690f;

/// Bytes from the frame of this function down to the lowest that the call wrote to, or `NEAR` where it wrote no deeper. The frames of
/// the call's wrappers, with the arguments that they push, are counted in; what a frame has below its last word written is not seen.
#[inline(never)]
pub fn depth(call: &mut dyn FnMut()) -> usize {
    let here = std::hint::black_box(0u64);
    let top = (&raw const here).expose_provenance();
    let low = top - PAINTED;
    // SAFETY: these words are of this thread's stack, which is larger, and below every frame that is in use.
    (low..top - NEAR).step_by(8).for_each(|at| unsafe { with_exposed_provenance_mut::<u64>(at).write_volatile(PAINT) });
    call();
    // SAFETY: as above.
    let painted = |at: &usize| unsafe { with_exposed_provenance::<u64>(*at).read_volatile() } == PAINT;
    top - (low..top - NEAR).step_by(8).find(|at| !painted(at)).unwrap_or(top - NEAR)
}

/// Runs on a thread whose stack `depth` can paint.
pub fn on_thread<T: Send + 'static>(run: impl FnOnce() -> T + Send + 'static) -> std::io::Result<T> {
    let thread = std::thread::Builder::new().stack_size(THREAD).spawn(run)?;
    thread.join().map_err(|_| std::io::Error::other("the thread that measures has failed"))
}

#[cfg(test)]
mod tests {
    use super::*;

    /// A call that writes to so many bytes of its frame.
    #[inline(never)]
    fn takes<const BYTES: usize>() {
        std::hint::black_box([1u8; BYTES]);
    }

    #[test]
    fn known_depths() {
        let depths = on_thread(|| [depth(&mut takes::<10>), depth(&mut takes::<5000>), depth(&mut takes::<60000>)]);
        let [short, middle, long] = depths.expect("a thread");
        assert_eq!(short, NEAR);
        assert!((5000..5000 + NEAR).contains(&middle), "{middle}");
        assert!((60000..60000 + NEAR).contains(&long), "{long}");
    }
}
