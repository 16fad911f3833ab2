//! A signature as SSH carries it: the algorithm's name and the algorithm's bytes.

use crate::wire::{Malformed, Put, Reader};

pub struct Signature<'a> {
    pub algorithm: &'a [u8],
    pub bytes: &'a [u8],
}

impl<'a> Signature<'a> {
    /// Reads `string algorithm, string bytes` and nothing more.
    pub fn read(signature: &'a [u8]) -> Result<Self, Malformed> {
        let mut fields = Reader::new(signature);
        let algorithm = fields.string()?;
        let bytes = fields.string()?;
        fields.end()?;
        Ok(Signature { algorithm, bytes })
    }

    pub fn to_vec(&self) -> Vec<u8> {
        let mut signature = Vec::new();
        signature.put_string(self.algorithm);
        signature.put_string(self.bytes);
        signature
    }
}
