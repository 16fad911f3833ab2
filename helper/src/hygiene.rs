//! What keeps private bytes within the process, and what the crate of libcrypto lacks. The only
//! module with unsafe code.

#![allow(unsafe_code)]

use crate::fault::Fault;
use foreign_types::ForeignTypeRef;
use libc::{c_int, c_ulong, c_void, rlim_t, rlimit, size_t};
use openssl::pkey::Private;
use openssl::rsa::Rsa;

/// Bytes of libcrypto's secure heap: several times what the longest key takes.
const SECURE_HEAP: size_t = 512 * 1024;
const LEAST_BLOCK: size_t = 32;

/// libcrypto is to read no configuration file: such a file can name code that is loaded.
const OPENSSL_INIT_NO_LOAD_CONFIG: u64 = 0x80;

/// Standard streams, the connection, DATA, and some more for what libcrypto reads.
const MOST_DESCRIPTORS: rlim_t = 16;

/// The key is used without libcrypto's blinding.
const RSA_FLAG_NO_BLINDING: c_int = 0x80;

extern "C" {
    fn OPENSSL_init_crypto(options: u64, settings: *const c_void) -> c_int;
    fn CRYPTO_secure_malloc_init(size: size_t, least: size_t) -> c_int;
    fn RSA_set_flags(key: *mut c_void, flags: c_int);
}

/// What a limit is to be from now on.
fn most(count: rlim_t) -> rlimit {
    rlimit {
        rlim_cur: count,
        rlim_max: count,
    }
}

/// No core file, no other process, a few descriptors, no program with more rights, no look into the
/// process by others of the same user, no environment, no configuration of libcrypto, and a heap for
/// secret numbers that isn't swapped where the limit on locked memory permits.
pub fn prepare() -> Result<(), Fault> {
    let (no, yes, unused): (c_ulong, c_ulong, c_ulong) = (0, 1, 0);
    // SAFETY: there is one thread, and nothing borrows from the environment.
    let cleared = unsafe { libc::clearenv() } == 0;
    // SAFETY: the limits are valid for the calls, which keep no pointer to them.
    let limited = unsafe {
        libc::setrlimit(libc::RLIMIT_CORE, &most(0)) == 0
            && libc::setrlimit(libc::RLIMIT_NPROC, &most(0)) == 0
            && libc::setrlimit(libc::RLIMIT_NOFILE, &most(MOST_DESCRIPTORS)) == 0
    };
    // SAFETY: PR_SET_NO_NEW_PRIVS takes numbers and touches no memory of the program.
    let bound = unsafe { libc::prctl(libc::PR_SET_NO_NEW_PRIVS, yes, unused, unused, unused) } == 0;
    // SAFETY: PR_SET_DUMPABLE takes a number and touches no memory of the program.
    let hidden = unsafe { libc::prctl(libc::PR_SET_DUMPABLE, no, unused, unused, unused) } == 0;
    // SAFETY: both are called once, before libcrypto is used and while there is one thread; the
    // settings may be null, and the sizes are powers of two.
    let heap = unsafe {
        OPENSSL_init_crypto(OPENSSL_INIT_NO_LOAD_CONFIG, std::ptr::null()) == 1
            && CRYPTO_secure_malloc_init(SECURE_HEAP, LEAST_BLOCK) != 0
    };
    match cleared && limited && bound && hidden && heap {
        true => Ok(()),
        false => Err(Fault::Memory),
    }
}

/// Keeps libcrypto from blinding: `Blinding` does it in its place.
pub fn without_blinding(key: Rsa<Private>) -> Rsa<Private> {
    // SAFETY: the pointer is to a whole key that this function owns, and the call sets a flag in it.
    unsafe { RSA_set_flags(key.as_ptr().cast(), RSA_FLAG_NO_BLINDING) };
    key
}
