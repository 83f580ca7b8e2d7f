//! How much memory the program has, as the C library has handed it out. A test that asks for it is alone in its program, so that no
//! other one asks for memory meanwhile.

/// The result of `mallinfo2` of the GNU C library.
#[repr(C)]
struct Info {
    arena: usize,
    free_chunks: [usize; 2],
    mapped_chunks: usize,
    mapped: usize,
    fast: [usize; 2],
    used: usize,
    free: [usize; 2],
}

unsafe extern "C" {
    safe fn mallinfo2() -> Info;
}

/// The bytes that are handed out.
pub fn used() -> usize {
    let info = mallinfo2();
    info.used + info.mapped
}
