//! RSA by PKCS #1 v1.5 (RFC 8017, section 8.2), under the names of RFC 4253 and RFC 8332.

use crate::blinding::Blinding;
use crate::hygiene;
use crate::key::Form;
use crate::number;
use crate::refused::Refused;
use crate::signature::Signature;
use crate::wire::Reader;
use openssl::bn::{BigNum, BigNumContext, BigNumRef};
use openssl::hash::{hash, MessageDigest};
use openssl::pkey::{Private, Public};
use openssl::rsa::{Padding, Rsa};

pub const NAME: &[u8] = b"ssh-rsa";
const CERTIFIED: &[u8] = b"ssh-rsa-cert-v01@openssh.com";

/// The bits that a modulus may have. A signature by a longer one takes seconds, and everybody waits.
pub const SIZES: std::ops::RangeInclusive<i32> = 1024..=8192;

/// The most bits of a public exponent, by which each signature is verified: 2^16 + 1 has 17.
const MAX_EXPONENT_BITS: i32 = 64;

/// The most bits of a factor: half of the longest modulus, since powers are taken modulo each.
const MAX_FACTOR_BITS: i32 = 4096;

/// The digest that is signed, which the algorithm's name tells.
#[derive(Clone, Copy)]
pub enum Digest {
    Sha1,
    Sha256,
    Sha512,
}

impl Digest {
    /// The one that a request's flags ask for: SHA-256 where both are asked for, as OpenSSH has it.
    pub fn asked(flags: u32) -> Self {
        if flags & 2 != 0 {
            Digest::Sha256
        } else if flags & 4 != 0 {
            Digest::Sha512
        } else {
            Digest::Sha1
        }
    }

    fn named(algorithm: &[u8]) -> Result<Self, Refused> {
        [Digest::Sha1, Digest::Sha256, Digest::Sha512]
            .into_iter()
            .find(|digest| digest.algorithm() == algorithm)
            .ok_or(Refused)
    }

    fn algorithm(self) -> &'static [u8] {
        match self {
            Digest::Sha1 => NAME,
            Digest::Sha256 => b"rsa-sha2-256",
            Digest::Sha512 => b"rsa-sha2-512",
        }
    }

    fn function(self) -> MessageDigest {
        match self {
            Digest::Sha1 => MessageDigest::sha1(),
            Digest::Sha256 => MessageDigest::sha256(),
            Digest::Sha512 => MessageDigest::sha512(),
        }
    }

    /// What precedes the digest in a DigestInfo (RFC 8017, section 9.2, note 1).
    fn prefix(self) -> &'static [u8] {
        match self {
            Digest::Sha1 => b"\x30\x21\x30\x09\x06\x05\x2b\x0e\x03\x02\x1a\x05\x00\x04\x14",
            Digest::Sha256 => {
                b"\x30\x31\x30\x0d\x06\x09\x60\x86\x48\x01\x65\x03\x04\x02\x01\x05\x00\x04\x20"
            }
            Digest::Sha512 => {
                b"\x30\x51\x30\x0d\x06\x09\x60\x86\x48\x01\x65\x03\x04\x02\x03\x05\x00\x04\x40"
            }
        }
    }

    /// The DigestInfo of a message.
    fn info(self, message: &[u8]) -> Result<Vec<u8>, Refused> {
        Ok([self.prefix(), &*hash(self.function(), message)?].concat())
    }
}

/// A DigestInfo encoded to the length of the modulus: 0, 1, bytes ff, 0 and itself.
fn encoded(info: &[u8], length: usize) -> Result<Vec<u8>, Refused> {
    let count = length.checked_sub(3 + info.len()).ok_or(Refused)?;
    let padding = vec![0xff; count];
    Ok([&[0, 1], &*padding, &[0], info].concat())
}

/// How many bits the modulus of a key blob has, plain or certified, where it is one of RSA.
pub fn bits(fields: &mut Reader<'_>) -> Option<i32> {
    match fields.string().ok()? {
        NAME => {}
        CERTIFIED => {
            fields.string().ok()?;
        }
        _ => return None,
    }
    fields.string().ok()?;
    let modulus = number::public(fields.string().ok()?).ok()?;
    Some(modulus.num_bits())
}

pub struct PublicKey<'a> {
    e: &'a [u8],
    n: &'a [u8],
    key: Rsa<Public>,
}

impl<'a> PublicKey<'a> {
    /// Reads `mpint e, mpint n`.
    pub fn read(fields: &mut Reader<'a>) -> Result<Self, Refused> {
        let (e, n) = (fields.string()?, fields.string()?);
        let (modulus, exponent) = (number::public(n)?, number::public(e)?);
        Refused::unless(SIZES.contains(&modulus.num_bits()))?;
        Refused::unless(exponent.num_bits() <= MAX_EXPONENT_BITS)?;
        let key = Rsa::from_public_components(modulus, exponent)?;
        Ok(PublicKey { e, n, key })
    }

    /// Bytes of the modulus, and of each signature.
    fn length(&self) -> Result<usize, Refused> {
        usize::try_from(self.key.size()).map_err(|_| Refused)
    }

    /// Some signers leave off the zeros at the front, which are put back.
    pub fn verifies(&self, message: &[u8], signature: &Signature<'_>) -> Result<bool, Refused> {
        let digest = Digest::named(signature.algorithm)?;
        let zeros = self.length()?.checked_sub(signature.bytes.len());
        let mut bytes = vec![0; zeros.ok_or(Refused)?];
        bytes.extend_from_slice(signature.bytes);
        self.opens(&bytes, &digest.info(message)?)
    }

    /// Whether the signature, under its padding, is the DigestInfo.
    fn opens(&self, signature: &[u8], info: &[u8]) -> Result<bool, Refused> {
        let mut opened = vec![0; self.length()?];
        let count = self
            .key
            .public_decrypt(signature, &mut opened, Padding::PKCS1)?;
        Ok(opened.get(..count) == Some(info))
    }
}

/// A key whose factors give its modulus.
pub struct PrivateKey<'a> {
    public: &'a PublicKey<'a>,
    key: Rsa<Private>,
}

impl<'a> PrivateKey<'a> {
    /// Reads `mpint d, mpint iqmp, mpint p, mpint q`, in the plain form behind `mpint n, mpint e`.
    pub fn read(
        public: &'a PublicKey<'a>,
        form: Form,
        fields: &mut Reader<'_>,
    ) -> Result<Self, Refused> {
        if let Form::Plain = form {
            fields.expect(public.n)?;
            fields.expect(public.e)?;
        }
        let mut next = || number::secret(fields.string()?);
        let (d, iqmp, p, q) = (next()?, next()?, next()?, next()?);
        let (n, e) = (public.key.n(), public.key.e());
        let is_short = |factor: &BigNumRef| factor.num_bits() <= MAX_FACTOR_BITS;
        Refused::unless(is_short(&p) && is_short(&q))?;
        let mut scratch = BigNumContext::new_secure()?;

        let mut product = BigNum::new_secure()?;
        product.checked_mul(&p, &q, &mut scratch)?;
        Refused::unless(product == *n && d < *n && iqmp < p)?;
        let dp = exponent(e, &d, &p, &mut scratch)?;
        let dq = exponent(e, &d, &q, &mut scratch)?;
        let (n, e) = (n.to_owned()?, e.to_owned()?);
        let key = Rsa::from_private_components(n, e, d, p, q, dp, dq, iqmp)?;
        let key = hygiene::without_blinding(key);
        Ok(PrivateKey { public, key })
    }

    /// A signature that doesn't verify stays here: with wrong numbers it can give a factor away.
    pub fn sign(&self, message: &[u8], digest: Digest) -> Result<Vec<u8>, Refused> {
        let length = self.public.length()?;
        let info = digest.info(message)?;
        let number = BigNum::from_slice(&encoded(&info, length)?)?;
        let mut scratch = BigNumContext::new_secure()?;
        let blinding = Blinding::new(self.key.n(), self.key.e(), &mut scratch)?;
        let blinded = padded(&*blinding.blind(&number, &mut scratch)?, length)?;
        let mut result = vec![0; length];
        self.key
            .private_encrypt(&blinded, &mut result, Padding::NONE)?;
        let result = BigNum::from_slice(&result)?;
        let bytes = padded(&*blinding.unblind(&result, &mut scratch)?, length)?;
        Refused::unless(self.public.opens(&bytes, &info)?)?;
        Ok(Signature {
            algorithm: digest.algorithm(),
            bytes: &bytes,
        }
        .to_vec())
    }
}

/// The number in so many bytes.
fn padded(number: &BigNumRef, length: usize) -> Result<Vec<u8>, Refused> {
    let length = i32::try_from(length).map_err(|_| Refused)?;
    Ok(number.to_vec_padded(length)?)
}

/// The exponent modulo one factor: d mod (factor - 1). It has to undo e there, which is seen before any
/// power is taken: what doesn't fit is refused at the price of a product.
fn exponent(
    e: &BigNumRef,
    d: &BigNumRef,
    factor: &BigNumRef,
    scratch: &mut BigNumContext,
) -> Result<BigNum, Refused> {
    let mut order = BigNum::new_secure()?;
    order.checked_sub(factor, BigNum::from_u32(1)?.as_ref())?;
    order.set_const_time();
    let mut exponent = BigNum::new_secure()?;
    exponent.checked_rem(d, &order, scratch)?;
    exponent.set_const_time();
    let mut product = BigNum::new_secure()?;
    product.mod_mul(e, &exponent, &order, scratch)?;
    Refused::unless(product == BigNum::from_u32(1)?)?;
    Ok(exponent)
}
