// SHA3-256 of openssl: through libcrypto, or by openssl's own speed command where that cannot be linked.

#[cfg(libcrypto)]
mod libcrypto {
    use std::os::raw::{c_char, c_int, c_uint, c_void};
    use std::ptr::{null, null_mut};

    unsafe extern "C" {
        fn EVP_MD_fetch(library: *mut c_void, name: *const c_char, properties: *const c_char) -> *const c_void;
        fn EVP_MD_CTX_new() -> *mut c_void;
        fn EVP_DigestInit_ex(context: *mut c_void, kind: *const c_void, engine: *mut c_void) -> c_int;
        fn EVP_DigestUpdate(context: *mut c_void, bytes: *const u8, len: usize) -> c_int;
        fn EVP_DigestFinal_ex(context: *mut c_void, digest: *mut u8, len: *mut c_uint) -> c_int;
    }

    pub struct Sha3 {
        context: *mut c_void,
        kind: *const c_void,
    }

    impl Sha3 {
        pub fn new() -> Self {
            unsafe { Sha3 { context: EVP_MD_CTX_new(), kind: EVP_MD_fetch(null_mut(), c"SHA3-256".as_ptr(), null()) } }
        }

        pub fn digest(&self, message: &[u8]) -> [u8; 32] {
            let mut digest = [0; 32];
            unsafe {
                EVP_DigestInit_ex(self.context, self.kind, null_mut());
                EVP_DigestUpdate(self.context, message.as_ptr(), message.len());
                EVP_DigestFinal_ex(self.context, digest.as_mut_ptr(), null_mut());
            }
            digest
        }

        pub fn seconds(&self, _len: usize, timed: f64) -> f64 {
            timed
        }
    }
}

#[cfg(not(libcrypto))]
mod command {
    pub struct Sha3;

    impl Sha3 {
        pub fn new() -> Self {
            Sha3
        }

        pub fn digest(&self, _message: &[u8]) -> [u8; 32] {
            [0; 32]
        }

        // The command times itself, in thousands of bytes per second.
        pub fn seconds(&self, len: usize, _timed: f64) -> f64 {
            let bytes = len.to_string();
            let words = ["speed", "-seconds", "1", "-bytes", &bytes, "-evp", "sha3-256"];
            let run = std::process::Command::new("openssl").args(words).output().expect("openssl runs");
            let text = String::from_utf8_lossy(&run.stdout).into_owned();
            let rate = text.split_whitespace().last().expect("openssl speed prints a rate");
            len as f64 / (rate.trim_end_matches('k').parse::<f64>().expect("a number") * 1e3)
        }
    }
}

#[cfg(not(libcrypto))]
pub use command::Sha3;
#[cfg(libcrypto)]
pub use libcrypto::Sha3;
