//! Keys of the types that OpenSSH has, plain or certified (OpenSSH's PROTOCOL.certkeys).

use crate::ecdsa::{self, Curve, Curves};
use crate::refused::Refused;
use crate::signature::Signature;
use crate::wire::Reader;
use crate::{ed25519, rsa};

const CERTIFIED: &[u8] = b"-cert-v01@openssh.com";

/// Whether a key comes by itself or in a certificate.
#[derive(Clone, Copy, PartialEq, Eq)]
pub enum Form {
    Plain,
    Certified,
}

enum Algorithm<'a> {
    Ed25519,
    Rsa,
    Ecdsa(&'a Curve),
}

/// What the name of a key type tells.
fn key_type<'a>(name: &[u8], curves: &'a Curves) -> Result<(Algorithm<'a>, Form), Refused> {
    let (plain, form) = match name.strip_suffix(CERTIFIED) {
        Some(plain) => (plain, Form::Certified),
        None => (name, Form::Plain),
    };
    let algorithm = match plain {
        ed25519::NAME => Algorithm::Ed25519,
        rsa::NAME => Algorithm::Rsa,
        _ => Algorithm::Ecdsa(curves.of(plain).ok_or(Refused)?),
    };
    Ok((algorithm, form))
}

/// A key blob whose key is one of its algorithm. Whom a certificate is for, and when, is the agent's
/// matter.
pub struct Blob<'a> {
    bytes: &'a [u8],
    name: &'a [u8],
    form: Form,
    key: PublicKey<'a>,
    /// What stands in a certificate behind its key.
    rest: &'a [u8],
}

enum PublicKey<'a> {
    Ed25519(ed25519::PublicKey<'a>),
    Rsa(rsa::PublicKey<'a>),
    Ecdsa(ecdsa::PublicKey<'a>),
}

impl<'a> Blob<'a> {
    /// Reads `string type`, in a certificate `string nonce`, and the key's fields.
    pub fn read(bytes: &'a [u8], curves: &'a Curves) -> Result<Self, Refused> {
        let mut fields = Reader::new(bytes);
        let name = fields.string()?;
        let (algorithm, form) = key_type(name, curves)?;
        if form == Form::Certified {
            fields.string()?;
        }
        let key = match algorithm {
            Algorithm::Ed25519 => PublicKey::Ed25519(ed25519::PublicKey::read(&mut fields)?),
            Algorithm::Rsa => PublicKey::Rsa(rsa::PublicKey::read(&mut fields)?),
            Algorithm::Ecdsa(curve) => {
                PublicKey::Ecdsa(ecdsa::PublicKey::read(curve, &mut fields)?)
            }
        };
        let rest = fields.rest();
        if form == Form::Plain {
            fields.end()?;
        }
        Ok(Blob {
            bytes,
            name,
            form,
            key,
            rest,
        })
    }

    /// Whether a plain key, or a certificate that its authority signed. RSA's own name stands for SHA-1, which no
    /// authority may sign by: whoever finds two certificates of one digest has both signed.
    pub fn is_certified(&self, curves: &'a Curves) -> Result<bool, Refused> {
        match self.form {
            Form::Plain => Ok(true),
            Form::Certified => {
                let seal = Seal::read(self.rest)?;
                let signed = self.bytes.len() - seal.signature_field;
                let signed = self.bytes.get(..signed).ok_or(Refused)?;
                match Blob::read(seal.authority, curves)? {
                    authority if authority.form == Form::Plain => {
                        Refused::unless(Signature::read(seal.signature)?.algorithm != rsa::NAME)?;
                        authority.verifies(signed, seal.signature)
                    }
                    _ => Err(Refused),
                }
            }
        }
    }

    /// Whether the signature, as SSH carries it, is this key's over the message.
    pub fn verifies(&self, message: &[u8], signature: &[u8]) -> Result<bool, Refused> {
        let signature = Signature::read(signature)?;
        match &self.key {
            PublicKey::Ed25519(key) => key.verifies(message, &signature),
            PublicKey::Rsa(key) => key.verifies(message, &signature),
            PublicKey::Ecdsa(key) => key.verifies(message, &signature),
        }
    }
}

/// What closes a certificate: the authority's key, and its signature over all before that.
struct Seal<'a> {
    authority: &'a [u8],
    signature: &'a [u8],
    /// How many bytes the signature takes, with its length.
    signature_field: usize,
}

impl<'a> Seal<'a> {
    /// Reads what follows the key: uint64 serial, uint32 type, string key id, string principals,
    /// uint64 valid after, uint64 valid before, string critical options, string extensions, string
    /// reserved, string signature key, string signature.
    fn read(rest: &'a [u8]) -> Result<Self, Refused> {
        let mut fields = Reader::new(rest);
        fields.uint64()?;
        fields.uint32()?;
        for _key_id_and_principals in 0..2 {
            fields.string()?;
        }
        for _after_and_before in 0..2 {
            fields.uint64()?;
        }
        for _options_extensions_and_reserved in 0..3 {
            fields.string()?;
        }
        let authority = fields.string()?;
        let signature_field = fields.rest().len();
        let signature = fields.string()?;
        fields.end()?;
        Ok(Seal {
            authority,
            signature,
            signature_field,
        })
    }
}

/// A key that may sign: it belongs to its blob, and its private numbers fit the public ones.
pub enum PrivateKey<'a> {
    Ed25519(ed25519::PrivateKey),
    Rsa(rsa::PrivateKey<'a>),
    Ecdsa(ecdsa::PrivateKey<'a>),
}

impl<'a> PrivateKey<'a> {
    /// Reads an added key: `string type`, of a certificate `string certificate`, and the fields.
    pub fn read(added: &[u8], blob: &'a Blob<'a>) -> Result<Self, Refused> {
        let mut fields = Reader::new(added);
        fields.expect(blob.name)?;
        if blob.form == Form::Certified {
            fields.expect(blob.bytes)?;
        }
        let key = match &blob.key {
            PublicKey::Ed25519(public) => {
                PrivateKey::Ed25519(ed25519::PrivateKey::read(public, &mut fields)?)
            }
            PublicKey::Rsa(public) => {
                PrivateKey::Rsa(rsa::PrivateKey::read(public, blob.form, &mut fields)?)
            }
            PublicKey::Ecdsa(public) => {
                PrivateKey::Ecdsa(ecdsa::PrivateKey::read(public, blob.form, &mut fields)?)
            }
        };
        fields.end()?;
        Ok(key)
    }

    /// The signature as SSH carries it. The flags choose among RSA's digests.
    pub fn sign(&self, message: &[u8], flags: u32) -> Result<Vec<u8>, Refused> {
        match self {
            PrivateKey::Ed25519(key) => key.sign(message),
            PrivateKey::Rsa(key) => key.sign(message, rsa::Digest::asked(flags)),
            PrivateKey::Ecdsa(key) => key.sign(message),
        }
    }
}
