//! The data types of RFC 4251, section 5, as they are read and written.

/// Too few bytes, bytes that should not follow, or others than are expected.
pub struct Malformed;

/// Takes values from the front of borrowed bytes.
pub struct Reader<'a> {
    rest: &'a [u8],
}

impl<'a> Reader<'a> {
    pub fn new(bytes: &'a [u8]) -> Self {
        Reader { rest: bytes }
    }

    /// A byte.
    pub fn byte(&mut self) -> Result<u8, Malformed> {
        self.array().map(|[byte]| byte)
    }

    /// Four bytes, the highest first.
    pub fn uint32(&mut self) -> Result<u32, Malformed> {
        self.array().map(u32::from_be_bytes)
    }

    /// Eight bytes, the highest first.
    pub fn uint64(&mut self) -> Result<u64, Malformed> {
        self.array().map(u64::from_be_bytes)
    }

    /// A length and so many bytes.
    pub fn string(&mut self) -> Result<&'a [u8], Malformed> {
        let length = usize::try_from(self.uint32()?).map_err(|_| Malformed)?;
        self.take(length)
    }

    /// A string that is known already.
    pub fn expect(&mut self, known: &[u8]) -> Result<(), Malformed> {
        match self.string()? {
            string if string == known => Ok(()),
            _ => Err(Malformed),
        }
    }

    /// What isn't taken yet.
    pub fn rest(&self) -> &'a [u8] {
        self.rest
    }

    /// Nothing follows.
    pub fn end(self) -> Result<(), Malformed> {
        match self.rest {
            [] => Ok(()),
            _ => Err(Malformed),
        }
    }

    fn take(&mut self, count: usize) -> Result<&'a [u8], Malformed> {
        let taken = self.rest.get(..count).ok_or(Malformed)?;
        self.rest = self.rest.get(count..).ok_or(Malformed)?;
        Ok(taken)
    }

    fn array<const N: usize>(&mut self) -> Result<[u8; N], Malformed> {
        self.take(N)?.try_into().map_err(|_| Malformed)
    }
}

/// Appends values to bytes that are public: answers, blobs and signatures.
pub trait Put {
    fn put_string(&mut self, string: &[u8]);
}

impl Put for Vec<u8> {
    /// A string has fewer than 2^32 bytes: all that is written here is shorter than a frame.
    fn put_string(&mut self, string: &[u8]) {
        self.extend_from_slice(&(string.len() as u32).to_be_bytes());
        self.extend_from_slice(string);
    }
}

#[cfg(test)]
mod tests {
    use super::{Put, Reader};

    #[test]
    fn a_written_string_is_read_back() {
        let mut bytes = Vec::new();
        bytes.put_string(b"testing");
        assert_eq!(bytes, b"\0\0\0\x07testing");
        let mut reader = Reader::new(&bytes);
        assert!(matches!(reader.string(), Ok(b"testing")));
        assert!(reader.end().is_ok());
    }

    #[test]
    fn a_string_that_is_cut_anywhere_is_malformed() {
        let whole = b"\0\0\0\x07testing";
        for cut in 0..whole.len() {
            assert!(Reader::new(&whole[..cut]).string().is_err());
        }
        assert!(Reader::new(b"\xff\xff\xff\xfftesting").string().is_err());
    }

    #[test]
    fn numbers_begin_with_their_highest_byte() {
        let mut reader = Reader::new(&[1, 0, 0, 2, 3, 0, 0, 0, 0, 0, 0, 4, 5]);
        assert!(matches!(reader.byte(), Ok(1)));
        assert!(matches!(reader.uint32(), Ok(0x0203)));
        assert!(matches!(reader.uint64(), Ok(0x0405)));
    }

    #[test]
    fn another_string_than_the_known_one_is_malformed() {
        assert!(Reader::new(b"\0\0\0\x02ab").expect(b"ab").is_ok());
        assert!(Reader::new(b"\0\0\0\x02ab").expect(b"ac").is_err());
        assert!(Reader::new(b"x").end().is_err());
    }
}
