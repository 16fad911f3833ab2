//! The signing helper of the Mortarleek agent. Over the connection that it is started with, it signs
//! and verifies as the agent asks until the agent ends. Tested, not proved.

#![deny(unsafe_code)]
#![deny(
    clippy::expect_used,
    clippy::indexing_slicing,
    clippy::panic,
    clippy::unreachable,
    clippy::unwrap_used
)]
#![cfg_attr(
    test,
    allow(
        clippy::expect_used,
        clippy::indexing_slicing,
        clippy::panic,
        clippy::unwrap_used
    )
)]

mod blinding;
mod ecdsa;
mod ed25519;
mod fault;
mod frame;
mod helper;
mod hygiene;
mod key;
mod number;
mod refused;
mod rsa;
mod serve;
mod signature;
mod standin;
mod wire;

use std::ffi::OsString;
use std::io::Write;
use std::process::ExitCode;

fn main() -> ExitCode {
    let mut words: Vec<OsString> = std::env::args_os().skip(1).collect();
    helper::put_ticket(&mut words, std::env::var_os(helper::TICKET));
    match hygiene::prepare().and_then(|()| helper::run(&words)) {
        Ok(()) => ExitCode::SUCCESS,
        Err(fault) => {
            // Where standard error is closed, the status alone tells.
            let _ = writeln!(std::io::stderr(), "mortarleek-helper: {}", fault.text());
            ExitCode::from(fault.status())
        }
    }
}
