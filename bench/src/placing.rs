//! Where the code lies. The same machine code runs up to a fifth slower or faster when it lies 16 bytes further on, so
//! one build says little: the benchmark is built at several places.

/// By how many bytes the functions behind lie further on.
const SHIFT: usize = match option_env!("BENCH_SHIFT") {
    Some(text) => match usize::from_str_radix(text, 10) {
        Ok(bytes) => bytes,
        Err(_) => panic!("BENCH_SHIFT is no number"),
    },
    None => 0,
};

/// Bytes that take room among the functions.
#[inline(never)]
pub fn take_room() {
    // SAFETY: the bytes are instructions that do nothing.
    unsafe { std::arch::asm!(".space {bytes}, 0x90", bytes = const SHIFT) }
}
