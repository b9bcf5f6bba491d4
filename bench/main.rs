// Times the proved Keccak-256, a plain Rust one and openssl's SHA3-256, which has the same permutation and block.
mod openssl;
mod plain;

use std::hint::black_box;
use std::time::Instant;

#[repr(C)]
struct State {
    lanes: [u64; 25],
}

#[repr(C)]
struct Digest {
    bytes: [u8; 32],
}

unsafe extern "C" {
    fn keccak_permute(state: *mut State);
    fn keccak_hash(bytes: *const u8, len: usize, digest: *mut Digest);
}

fn proved_keccak256(message: &[u8]) -> [u8; 32] {
    let mut digest = Digest { bytes: [0; 32] };
    unsafe { keccak_hash(message.as_ptr(), message.len(), &mut digest) };
    digest.bytes
}

// Has the compiler make the digest.
fn keep(digest: [u8; 32]) {
    black_box(digest);
}

// The least time of one call of each. They take short turns, so that what else runs meanwhile touches all alike.
fn seconds<const N: usize>(count: usize, mut calls: [&mut dyn FnMut(); N]) -> [f64; N] {
    let mut best = [f64::MAX; N];
    for _ in 0..300 {
        for (best, call) in best.iter_mut().zip(&mut calls) {
            let start = Instant::now();
            for _ in 0..count {
                call();
            }
            *best = best.min(start.elapsed().as_secs_f64() / count as f64);
        }
    }
    best
}

fn main() {
    println!("{:<24}{:>10}{:>12}{:>10}{:>14}{:>16}", "", "proved", "plain Rust", "openssl", "plain/proved", "openssl/proved");

    let (mut proved, mut plain) = (State { lanes: [1; 25] }, [1; 25]);
    let [ours, theirs] = seconds(
        5_000,
        [&mut || unsafe { keccak_permute(black_box(&mut proved)) }, &mut || plain::keccak_f(black_box(&mut plain))],
    )
    .map(|time| 1.0 / time);
    assert_eq!(proved.lanes, plain);
    println!("{:<24}{ours:>10.0}{theirs:>12.0}{:>10}{:>14.2}{:>16}", "permutations per second", "-", theirs / ours, "-");

    let sha3 = openssl::Sha3::new();
    for len in [1, 136, 1024, 1 << 20] {
        let message: Vec<u8> = (0..len).map(|i| (i * 7 + 1) as u8).collect();
        assert_eq!(proved_keccak256(&message), plain::keccak256(&message));
        let [ours, theirs, others] = seconds(
            1_000_000 / (len + 136) + 1,
            [
                &mut || keep(proved_keccak256(black_box(&message))),
                &mut || keep(plain::keccak256(black_box(&message))),
                &mut || keep(sha3.digest(black_box(&message))),
            ],
        );
        let [ours, theirs, openssl] = [ours, theirs, sha3.seconds(len, others)].map(|time| len as f64 / time / 1e6);
        let name = format!("MB/s at {len} bytes");
        println!("{name:<24}{ours:>10.1}{theirs:>12.1}{openssl:>10.1}{:>14.2}{:>16.2}", theirs / ours, openssl / ours);
    }
}
