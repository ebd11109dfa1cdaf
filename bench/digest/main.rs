//! The proved SHA-256 beside its twin in plain Rust.
#[path = "../measuring.rs"]
mod measuring;
mod twin;

use measuring::Bench;

unsafe extern "C" {
    fn digest_into(message: *const u8, message_len: usize, out: *mut u8, out_len: usize);
}

fn proved(message: &[u8]) -> [u8; 32] {
    let mut out = [0u8; 32];
    // The declaration is that of crates/digest_bench: a slice is a pointer and then a length.
    unsafe { digest_into(message.as_ptr(), message.len(), out.as_mut_ptr(), out.len()) };
    out
}

/// Bytes without a pattern, the same in each run.
fn message(size: usize) -> Vec<u8> {
    let mut x = 1u64;
    let next = || {
        x = x.wrapping_mul(6364136223846793005).wrapping_add(1442695040888963407);
        (x >> 56) as u8
    };
    std::iter::repeat_with(next).take(size).collect()
}

fn main() {
    let bench = Bench::new();
    let message = message(bench.amount(64 << 20, 1 << 20));
    for length in 0..300 {
        assert_eq!(proved(&message[..length]), twin::sha256(&message[..length]), "{length} bytes");
    }
    bench.row("SHA-256 of 64 MiB", 1, || proved(&message), || twin::sha256(&message));
}
