//! Blinding of RSA's private operation, so that its time tells nothing of the key: the operation is
//! done to the number times r^e, and its result is divided by r, which is drawn anew.
//!
//! libcrypto blinds by itself, with a factor as long as the modulus. To make one takes it most of a
//! signature's time, which pays for a key that is kept; here each request brings its key. A
//! factor of 128 bits is as little to be guessed, and its inverse is found at once.

use openssl::bn::{BigNum, BigNumContext, BigNumRef, MsbOption};
use openssl::error::ErrorStack;

const FACTOR_BITS: i32 = 128;

pub struct Blinding<'a> {
    modulus: &'a BigNumRef,
    power: BigNum,
    inverse: BigNum,
}

impl<'a> Blinding<'a> {
    pub fn new(
        modulus: &'a BigNumRef,
        e: &BigNumRef,
        scratch: &mut BigNumContext,
    ) -> Result<Self, ErrorStack> {
        let mut factor = BigNum::new_secure()?;
        factor.rand(FACTOR_BITS, MsbOption::ONE, true)?;
        let mut power = BigNum::new_secure()?;
        power.mod_exp(&factor, e, modulus, scratch)?;
        factor.set_const_time();
        let mut inverse = BigNum::new_secure()?;
        inverse.mod_inverse(&factor, modulus, scratch)?;
        Ok(Blinding {
            modulus,
            power,
            inverse,
        })
    }

    /// The number that the private operation is done to.
    pub fn blind(
        &self,
        number: &BigNumRef,
        scratch: &mut BigNumContext,
    ) -> Result<BigNum, ErrorStack> {
        self.product(number, &self.power, scratch)
    }

    /// The result of the private operation on the number itself.
    pub fn unblind(
        &self,
        result: &BigNumRef,
        scratch: &mut BigNumContext,
    ) -> Result<BigNum, ErrorStack> {
        self.product(result, &self.inverse, scratch)
    }

    fn product(
        &self,
        left: &BigNumRef,
        right: &BigNumRef,
        scratch: &mut BigNumContext,
    ) -> Result<BigNum, ErrorStack> {
        let mut product = BigNum::new()?;
        product.mod_mul(left, right, self.modulus, scratch)?;
        Ok(product)
    }
}

#[cfg(test)]
mod tests {
    use super::*;

    /// n, e and d of a key of 1024 bits.
    fn numbers() -> [BigNum; 3] {
        let mut p = BigNum::new().unwrap();
        let mut q = BigNum::new().unwrap();
        p.generate_prime(512, true, None, None).unwrap();
        q.generate_prime(512, true, None, None).unwrap();
        let one = BigNum::from_u32(1).unwrap();
        let e = BigNum::from_u32(65537).unwrap();
        let mut scratch = BigNumContext::new().unwrap();
        let (mut n, mut phi, mut d) = (
            BigNum::new().unwrap(),
            BigNum::new().unwrap(),
            BigNum::new().unwrap(),
        );
        n.checked_mul(&p, &q, &mut scratch).unwrap();
        phi.checked_mul(&(&p - &one), &(&q - &one), &mut scratch)
            .unwrap();
        d.mod_inverse(&e, &phi, &mut scratch).unwrap();
        [n, e, d]
    }

    #[test]
    fn what_is_blinded_anew_each_time_comes_out_as_without_blinding() {
        let [n, e, d] = numbers();
        let mut scratch = BigNumContext::new().unwrap();
        let number = BigNum::from_u32(1_000_003).unwrap();
        let mut wanted = BigNum::new().unwrap();
        wanted.mod_exp(&number, &d, &n, &mut scratch).unwrap();
        let mut seen: Vec<BigNum> = Vec::new();
        for _ in 0..20 {
            let blinding = Blinding::new(&n, &e, &mut scratch).unwrap();
            let blinded = blinding.blind(&number, &mut scratch).unwrap();
            assert!(blinded.num_bits() > 900 && !seen.contains(&blinded));
            let mut result = BigNum::new().unwrap();
            result.mod_exp(&blinded, &d, &n, &mut scratch).unwrap();
            assert!(blinding.unblind(&result, &mut scratch).unwrap() == wanted);
            seen.push(blinded);
        }
    }
}
