//! ECDSA over the three curves of NIST, as RFC 5656 carries it.

use crate::key::Form;
use crate::number;
use crate::refused::Refused;
use crate::signature::Signature;
use crate::wire::{Malformed, Reader};
use openssl::bn::{BigNum, BigNumContext};
use openssl::ec::{EcGroup, EcKey, EcPoint};
use openssl::ecdsa::EcdsaSig;
use openssl::error::ErrorStack;
use openssl::nid::Nid;
use openssl::pkey::Private;
use openssl::sha::{Sha256, Sha384, Sha512};

/// A curve with the names that go with it.
pub struct Curve {
    algorithm: &'static [u8],
    name: &'static [u8],
    digest: fn(&[u8]) -> Vec<u8>,
    group: EcGroup,
    order: BigNum,
    /// Bytes of a point: its form, which is 4, and two coordinates.
    point_length: usize,
}

impl Curve {
    fn new(
        nid: Nid,
        algorithm: &'static str,
        digest: fn(&[u8]) -> Vec<u8>,
        point_length: usize,
    ) -> Result<Self, ErrorStack> {
        let group = EcGroup::from_curve_name(nid)?;
        let mut order = BigNum::new()?;
        group.order(&mut order, &mut *BigNumContext::new()?)?;
        Ok(Curve {
            algorithm: algorithm.as_bytes(),
            name: algorithm.trim_start_matches("ecdsa-sha2-").as_bytes(),
            digest,
            group,
            order,
            point_length,
        })
    }
}

/// The curves, which take a while to make.
pub struct Curves([Curve; 3]);

impl Curves {
    pub fn new() -> Result<Self, ErrorStack> {
        let p256 = Nid::X9_62_PRIME256V1;
        Ok(Curves([
            Curve::new(p256, "ecdsa-sha2-nistp256", sha256, 65)?,
            Curve::new(Nid::SECP384R1, "ecdsa-sha2-nistp384", sha384, 97)?,
            Curve::new(Nid::SECP521R1, "ecdsa-sha2-nistp521", sha512, 133)?,
        ]))
    }

    /// The curve of a plain key type.
    pub fn of(&self, algorithm: &[u8]) -> Option<&Curve> {
        self.0.iter().find(|curve| curve.algorithm == algorithm)
    }
}

fn sha256(message: &[u8]) -> Vec<u8> {
    let mut hash = Sha256::new();
    hash.update(message);
    hash.finish().to_vec()
}

fn sha384(message: &[u8]) -> Vec<u8> {
    let mut hash = Sha384::new();
    hash.update(message);
    hash.finish().to_vec()
}

fn sha512(message: &[u8]) -> Vec<u8> {
    let mut hash = Sha512::new();
    hash.update(message);
    hash.finish().to_vec()
}

/// A point of the curve.
pub struct PublicKey<'a> {
    curve: &'a Curve,
    q: &'a [u8],
    point: EcPoint,
}

impl<'a> PublicKey<'a> {
    /// Reads `string curve, string Q`, where Q is in the long form.
    pub fn read(curve: &'a Curve, fields: &mut Reader<'a>) -> Result<Self, Refused> {
        fields.expect(curve.name)?;
        let q = fields.string()?;
        Refused::unless(q.len() == curve.point_length && q.first() == Some(&4))?;
        let point = EcPoint::from_bytes(&curve.group, q, &mut *BigNumContext::new()?)?;
        Ok(PublicKey { curve, q, point })
    }

    /// The bytes of a signature are `mpint r, mpint s`.
    pub fn verifies(&self, message: &[u8], signature: &Signature<'_>) -> Result<bool, Refused> {
        Refused::unless(signature.algorithm == self.curve.algorithm)?;
        let mut fields = Reader::new(signature.bytes);
        let r = number::public(fields.string()?)?;
        let s = number::public(fields.string()?)?;
        fields.end()?;
        let key = EcKey::from_public_key(&self.curve.group, &self.point)?;
        let digest = (self.curve.digest)(message);
        Ok(EcdsaSig::from_private_components(r, s)?.verify(&digest, &key)?)
    }

    fn repeated(&self, fields: &mut Reader<'_>) -> Result<(), Malformed> {
        fields.expect(self.curve.name)?;
        fields.expect(self.q)
    }
}

/// A number that gives its public key.
pub struct PrivateKey<'a> {
    curve: &'a Curve,
    key: EcKey<Private>,
}

impl<'a> PrivateKey<'a> {
    /// Reads `mpint d`, in the plain form behind `string curve, string Q`.
    pub fn read(
        public: &PublicKey<'a>,
        form: Form,
        fields: &mut Reader<'_>,
    ) -> Result<Self, Refused> {
        if let Form::Plain = form {
            public.repeated(fields)?;
        }
        let curve = public.curve;
        let d = number::secret(fields.string()?)?;
        Refused::unless(d < curve.order)?;
        let mut point = EcPoint::new(&curve.group)?;
        point.mul_generator(&curve.group, &d, &*BigNumContext::new_secure()?)?;
        let fits = point.eq(&curve.group, &public.point, &mut *BigNumContext::new()?)?;
        Refused::unless(fits)?;
        let key = EcKey::from_private_components(&curve.group, &d, &public.point)?;
        Ok(PrivateKey { curve, key })
    }

    pub fn sign(&self, message: &[u8]) -> Result<Vec<u8>, Refused> {
        let digest = (self.curve.digest)(message);
        let signature = EcdsaSig::sign(&digest, &self.key)?;
        let mut bytes = Vec::new();
        number::put_mpint(&mut bytes, signature.r());
        number::put_mpint(&mut bytes, signature.s());
        Ok(Signature {
            algorithm: self.curve.algorithm,
            bytes: &bytes,
        }
        .to_vec())
    }
}
