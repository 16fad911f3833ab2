//! Positive numbers in the form of RFC 4251's mpint: no sign, and no byte more than it takes. A private
//! number may have zeros in front, as OpenSSH reads it.

use crate::refused::Refused;
use crate::wire::Put;
use openssl::bn::{BigNum, BigNumRef};

/// The longest number that any key has: 16384 bits.
const LONGEST: usize = 2048;

/// A number that may be known.
pub fn public(mpint: &[u8]) -> Result<BigNum, Refused> {
    Ok(BigNum::from_slice(magnitude(mpint)?)?)
}

/// A number that stays secret: on the secure heap, and wiped when it is freed. Zeros in front are
/// dropped.
pub fn secret(mpint: &[u8]) -> Result<BigNum, Refused> {
    Refused::unless(mpint.first().map_or(false, |&first| first < 0x80))?;
    let zeros = mpint.iter().take_while(|&&byte| byte == 0).count();
    let bytes = mpint.get(zeros..).ok_or(Refused)?;
    Refused::unless(!bytes.is_empty() && bytes.len() <= LONGEST)?;
    let mut number = BigNum::new_secure()?;
    number.copy_from_slice(bytes)?;
    number.set_const_time();
    Ok(number)
}

/// Appends a number that isn't negative as an mpint.
pub fn put_mpint(out: &mut Vec<u8>, number: &BigNumRef) {
    let mut mpint = number.to_vec();
    if mpint.first().map_or(false, |&first| first >= 0x80) {
        mpint.insert(0, 0);
    }
    out.put_string(&mpint);
}

/// The bytes of the number from its highest one on.
fn magnitude(mpint: &[u8]) -> Result<&[u8], Refused> {
    let bytes = match mpint {
        [0, high, ..] if *high >= 0x80 => mpint.get(1..).ok_or(Refused)?,
        [first, ..] if (1..0x80).contains(first) => mpint,
        _ => return Err(Refused),
    };
    Refused::unless(bytes.len() <= LONGEST)?;
    Ok(bytes)
}

#[cfg(test)]
mod tests {
    use super::*;

    #[test]
    fn the_positive_examples_of_rfc_4251_are_read_and_written() {
        for (mpint, hex) in [
            (&b"\x09\xa3\x78\xf9\xb2\xe3\x32\xa7"[..], "09a378f9b2e332a7"),
            (b"\0\x80", "80"),
        ] {
            let number = public(mpint).ok().unwrap();
            assert!(number == BigNum::from_hex_str(hex).unwrap());
            let mut out = Vec::new();
            put_mpint(&mut out, &number);
            assert_eq!(out[4..], *mpint);
        }
    }

    #[test]
    fn zero_negative_and_padded_numbers_are_refused() {
        for mpint in [
            &b""[..],
            b"\0",
            b"\x80",
            b"\xed\xcc",
            b"\0\x7f",
            b"\0\0\x80",
        ] {
            assert!(public(mpint).is_err());
        }
    }

    #[test]
    fn zeros_in_front_of_a_secret_number_are_dropped() {
        for mpint in [&b"\x7f"[..], b"\0\x7f", b"\0\0\0\x7f"] {
            assert!(secret(mpint).ok().unwrap() == BigNum::from_u32(0x7f).unwrap());
        }
        for mpint in [&b"\x80"[..], b"", b"\0", b"\0\0"] {
            assert!(secret(mpint).is_err());
        }
    }

    #[test]
    fn a_number_has_at_most_16384_bits() {
        let mut mpint = vec![0x7f; 2048];
        assert!(public(&mpint).is_ok());
        mpint.push(0);
        assert!(public(&mpint).is_err());
        let mut mpint = vec![0xff; 2049];
        mpint[0] = 0;
        assert!(secret(&mpint).is_ok());
    }
}
