//! Stand-in keys, which sign by HMAC-SHA-256, and the hosts that have such keys.

use crate::refused::Refused;
use crate::signature::Signature;
use crate::wire::Reader;
use openssl::hash::MessageDigest;
use openssl::memcmp;
use openssl::pkey::PKey;
use openssl::sign::Signer;
use zeroize::Zeroizing;

const NAME: &[u8] = b"keyed-sha256@example.com";
const TAG: usize = 32;
const SECRET: usize = 32;
const LINE: usize = 2 * TAG + 1 + 2 * SECRET + 1;

/// Signs where the added key is `string type, string tag, string secret` and the blob is its own.
pub fn sign(added: &[u8], blob: &[u8], message: &[u8]) -> Result<Vec<u8>, Refused> {
    let mut fields = Reader::new(added);
    fields.expect(NAME)?;
    let tag = fields.string()?;
    let secret = fields.string()?;
    fields.end()?;
    Refused::unless(tag_of(blob)? == tag && secret.len() == SECRET)?;
    signature(secret, message)
}

/// Hosts' tags and secrets, tag before secret. These are kept for as long as the program runs.
#[derive(Default)]
pub struct Hosts {
    records: Zeroizing<Vec<u8>>,
}

impl Hosts {
    /// Reads lines of a tag, a space and a secret in hexadecimal.
    pub fn read(text: &[u8]) -> Option<Self> {
        let lines = text.chunks_exact(LINE);
        if !lines.remainder().is_empty() {
            return None;
        }
        let mut records = Zeroizing::new(vec![0; text.len() / LINE * (TAG + SECRET)]);
        for (record, line) in records.chunks_exact_mut(TAG + SECRET).zip(lines) {
            let (tag, line) = line.split_at(2 * TAG);
            let (space, line) = line.split_at(1);
            let (secret, end) = line.split_at(2 * SECRET);
            if space != b" " || end != b"\n" {
                return None;
            }
            let (tag_out, secret_out) = record.split_at_mut(TAG);
            decode(tag, tag_out)?;
            decode(secret, secret_out)?;
        }
        Some(Hosts { records })
    }

    /// Whether the signature is that of the first host with the blob's tag.
    pub fn verifies(&self, blob: &[u8], message: &[u8], given: &[u8]) -> Result<bool, Refused> {
        let tag = tag_of(blob)?;
        let mut hosts = self.records.chunks_exact(TAG + SECRET);
        let secret = hosts
            .find_map(|record| record.strip_prefix(tag))
            .ok_or(Refused)?;
        let own = signature(secret, message)?;
        Ok(own.len() == given.len() && memcmp::eq(&own, given))
    }
}

/// The tag of a stand-in blob, which is `string type, string tag`.
fn tag_of(blob: &[u8]) -> Result<&[u8], Refused> {
    let mut fields = Reader::new(blob);
    fields.expect(NAME)?;
    let tag = fields.string()?;
    fields.end()?;
    Refused::unless(tag.len() == TAG)?;
    Ok(tag)
}

fn signature(secret: &[u8], message: &[u8]) -> Result<Vec<u8>, Refused> {
    let key = PKey::hmac(secret)?;
    let bytes = Signer::new(MessageDigest::sha256(), &key)?.sign_oneshot_to_vec(message)?;
    Ok(Signature {
        algorithm: NAME,
        bytes: &bytes,
    }
    .to_vec())
}

/// Fills the bytes from two hexadecimal digits each.
pub fn decode(digits: &[u8], bytes: &mut [u8]) -> Option<()> {
    let pairs = digits.chunks_exact(2);
    if digits.len() != 2 * bytes.len() {
        return None;
    }
    for (byte, pair) in bytes.iter_mut().zip(pairs) {
        for &digit in pair {
            let value = char::from(digit).to_digit(16)?;
            *byte = *byte << 4 | u8::try_from(value).ok()?;
        }
    }
    Some(())
}
