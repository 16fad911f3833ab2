//! Ed25519 (RFC 8032), as RFC 8709 carries it.

use crate::refused::Refused;
use crate::signature::Signature;
use crate::wire::Reader;
use openssl::pkey::{Id, PKey, Private, Public};
use openssl::sign::{Signer, Verifier};

pub const NAME: &[u8] = b"ssh-ed25519";

pub struct PublicKey<'a> {
    pk: &'a [u8; 32],
}

impl<'a> PublicKey<'a> {
    /// Reads `string pk`.
    pub fn read(fields: &mut Reader<'a>) -> Result<Self, Refused> {
        let pk = fields.string()?.try_into().map_err(|_| Refused)?;
        Ok(PublicKey { pk })
    }

    pub fn verifies(&self, message: &[u8], signature: &Signature<'_>) -> Result<bool, Refused> {
        Refused::unless(signature.algorithm == NAME)?;
        let key: PKey<Public> = PKey::public_key_from_raw_bytes(self.pk, Id::ED25519)?;
        let mut verifier = Verifier::new_without_digest(&key)?;
        Ok(verifier.verify_oneshot(signature.bytes, message)?)
    }
}

/// A key whose seed gives its public half. Signing under a foreign half would give the key away.
pub struct PrivateKey {
    key: PKey<Private>,
}

impl PrivateKey {
    /// Reads `string pk, string sk`, where sk is the seed and again pk.
    pub fn read(public: &PublicKey<'_>, fields: &mut Reader<'_>) -> Result<Self, Refused> {
        fields.expect(public.pk)?;
        let sk: &[u8; 64] = fields.string()?.try_into().map_err(|_| Refused)?;
        let (seed, half) = sk.split_at(32);
        Refused::unless(half == public.pk)?;
        let key = PKey::private_key_from_raw_bytes(seed, Id::ED25519)?;
        Refused::unless(key.raw_public_key()? == public.pk)?;
        Ok(PrivateKey { key })
    }

    pub fn sign(&self, message: &[u8]) -> Result<Vec<u8>, Refused> {
        let mut bytes = [0; 64];
        Signer::new_without_digest(&self.key)?.sign_oneshot(&mut bytes, message)?;
        Ok(Signature {
            algorithm: NAME,
            bytes: &bytes,
        }
        .to_vec())
    }
}
