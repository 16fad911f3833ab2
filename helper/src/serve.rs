//! Reads asks and answers them in order. Nothing of one ask is left when its answer leaves.

use crate::ecdsa::Curves;
use crate::fault::Fault;
use crate::frame::{Answer, Ask, Request, LONGEST_BODY};
use crate::key::{Blob, PrivateKey};
use crate::refused::Refused;
use crate::rsa;
use crate::standin::{self, Hosts};
use crate::wire::Reader;
use std::cell::Cell;
use std::io::{ErrorKind, Read, Write};

/// A body, which may hold private keys: storage of its exact length that is wiped when it is freed.
#[cfg(not(feature = "leaves_requests"))]
type Body = zeroize::Zeroizing<Vec<u8>>;
#[cfg(feature = "leaves_requests")]
type Body = Vec<u8>;

/// Answers whoever asks, by what was made for it beforehand.
pub struct Answerer {
    curves: Curves,
    hosts: Hosts,
    /// Whether standard error was told that a key can't sign, and why: once for each cause.
    has_told: [Cell<bool>; 2],
}

/// Why a key can't sign.
#[derive(Clone, Copy)]
enum Cause {
    RsaSize,
    Other,
}

impl Cause {
    /// The cause where a signature was refused.
    fn of(blob: &[u8]) -> Self {
        match rsa::bits(&mut Reader::new(blob)) {
            Some(bits) if !rsa::SIZES.contains(&bits) => Cause::RsaSize,
            _ => Cause::Other,
        }
    }

    fn text(self) -> &'static str {
        match self {
            Cause::RsaSize => "an RSA key signs with 1024 to 8192 bits, and this one has others",
            Cause::Other => {
                "a key can't sign: its type isn't known, or its private numbers aren't those of its \
                 public key"
            }
        }
    }
}

impl Answerer {
    pub fn new(curves: Curves, hosts: Hosts) -> Self {
        Answerer {
            curves,
            hosts,
            has_told: [Cell::new(false), Cell::new(false)],
        }
    }

    /// Says on standard error why a key can't sign, the first time that it comes to that.
    fn tell(&self, blob: &[u8]) {
        let cause = Cause::of(blob);
        if let Some(told) = self.has_told.get(cause as usize) {
            if !told.replace(true) {
                // Where standard error is closed, the refusal alone tells.
                let _ = writeln!(std::io::stderr(), "mortarleek-helper: {}", cause.text());
            }
        }
    }

    /// Serves the peer until it ends between two frames.
    pub fn serve(&self, peer: &mut (impl Read + Write)) -> Result<(), Fault> {
        while let Some(body) = next_body(peer)? {
            let answer = self.answered(&body)?;
            drop(body);
            peer.write_all(&answer).map_err(|_| Fault::WriteFault)?;
        }
        Ok(())
    }

    /// The frame that answers a body.
    fn answered(&self, body: &[u8]) -> Result<Vec<u8>, Fault> {
        let Ask { number, request } = Ask::read(body)?;
        Ok(self.answer(&request).frame(number))
    }

    fn answer(&self, request: &Request<'_>) -> Answer {
        match *request {
            Request::Sign {
                private,
                blob,
                message,
                flags,
            } => match self.signature(private, blob, message, flags) {
                Ok(signature) => Answer::Signed(signature),
                Err(Refused) => {
                    self.tell(blob);
                    Answer::Refused
                }
            },
            Request::Verify {
                host_key,
                signature,
                session,
            } => match self.verifies(host_key, signature, session) {
                Ok(true) => Answer::True,
                Ok(false) | Err(Refused) => Answer::False,
            },
        }
    }

    fn signature(
        &self,
        private: &[u8],
        blob: &[u8],
        message: &[u8],
        flags: u32,
    ) -> Result<Vec<u8>, Refused> {
        match Blob::read(blob, &self.curves) {
            Ok(blob) => PrivateKey::read(private, &blob)?.sign(message, flags),
            Err(Refused) => standin::sign(private, blob, message),
        }
    }

    fn verifies(&self, host_key: &[u8], signature: &[u8], session: &[u8]) -> Result<bool, Refused> {
        match Blob::read(host_key, &self.curves) {
            Ok(blob) => Ok(blob.is_certified(&self.curves)? && blob.verifies(session, signature)?),
            Err(Refused) => self.hosts.verifies(host_key, session, signature),
        }
    }
}

/// The next frame's body; none where the peer ended before it.
fn next_body(peer: &mut impl Read) -> Result<Option<Body>, Fault> {
    let mut length = [0; 4];
    match fill(peer, &mut length)? {
        0 => return Ok(None),
        4 => (),
        _ => return Err(Fault::TornEnd),
    }
    let length = usize::try_from(u32::from_be_bytes(length)).map_err(|_| Fault::BadFrame)?;
    if !(1..=LONGEST_BODY).contains(&length) {
        return Err(Fault::BadFrame);
    }
    let mut room = Vec::new();
    room.try_reserve_exact(length).map_err(|_| Fault::Memory)?;
    room.resize(length, 0);
    let mut body = Body::from(room);
    if fill(peer, &mut body)? < length {
        return Err(Fault::TornEnd);
    }
    Ok(Some(body))
}

/// Reads until the bytes are full or the peer ends, and tells how many were read.
pub fn fill(peer: &mut impl Read, bytes: &mut [u8]) -> Result<usize, Fault> {
    let mut filled = 0;
    while let Some(rest) = bytes.get_mut(filled..).filter(|rest| !rest.is_empty()) {
        match peer.read(rest) {
            Ok(0) => break,
            Ok(count) => filled += count,
            Err(fault) if fault.kind() == ErrorKind::Interrupted => (),
            Err(_) => return Err(Fault::ReadFault),
        }
    }
    Ok(filled)
}
