//! The messages of child processes: a frame is a string that holds a kind, a number and fields.

use crate::wire::{Malformed, Put, Reader};

/// The most bytes of a body that comes from the agent.
pub const LONGEST_BODY: usize = 1_048_576;

const SIGN: u8 = 1;
const VERIFY: u8 = 2;
const HELLO: u8 = 1;
const SIGNED: u8 = 101;
const REFUSED: u8 = 102;
const TRUE: u8 = 103;
const FALSE: u8 = 104;

/// What the agent asks for, under the number that the answer has to bear.
pub struct Ask<'a> {
    pub number: u64,
    pub request: Request<'a>,
}

pub enum Request<'a> {
    Sign {
        private: &'a [u8],
        blob: &'a [u8],
        message: &'a [u8],
        flags: u32,
    },
    Verify {
        host_key: &'a [u8],
        signature: &'a [u8],
        session: &'a [u8],
    },
}

impl<'a> Ask<'a> {
    /// Reads a body. A question to the user is none that a helper can answer, and malformed here.
    pub fn read(body: &'a [u8]) -> Result<Self, Malformed> {
        let mut fields = Reader::new(body);
        let kind = fields.byte()?;
        let number = fields.uint64()?;
        let request = match kind {
            SIGN => Request::Sign {
                private: fields.string()?,
                blob: fields.string()?,
                message: fields.string()?,
                flags: fields.uint32()?,
            },
            VERIFY => Request::Verify {
                host_key: fields.string()?,
                signature: fields.string()?,
                session: fields.string()?,
            },
            _ => return Err(Malformed),
        };
        fields.end()?;
        Ok(Ask { number, request })
    }
}

pub enum Answer {
    Signed(Vec<u8>),
    Refused,
    True,
    False,
}

impl Answer {
    /// The frame of the answer to the ask of this number.
    pub fn frame(&self, number: u64) -> Vec<u8> {
        match self {
            Answer::Signed(signature) => {
                let mut field = Vec::new();
                field.put_string(signature);
                frame(SIGNED, number, &field)
            }
            Answer::Refused => frame(REFUSED, number, &[]),
            Answer::True => frame(TRUE, number, &[]),
            Answer::False => frame(FALSE, number, &[]),
        }
    }
}

/// The frame that tells the agent which of its jobs has come.
pub fn hello(job: u64, ticket: &[u8; 16]) -> Vec<u8> {
    let mut field = Vec::new();
    field.put_string(ticket);
    frame(HELLO, job, &field)
}

fn frame(kind: u8, number: u64, fields: &[u8]) -> Vec<u8> {
    let mut body = vec![kind];
    body.extend_from_slice(&number.to_be_bytes());
    body.extend_from_slice(fields);
    let mut frame = Vec::new();
    frame.put_string(&body);
    frame
}

#[cfg(test)]
mod tests {
    use super::*;

    #[test]
    fn a_hello_is_33_bytes() {
        let frame = hello(1, &[0; 16]);
        assert_eq!(frame[..5], [0, 0, 0, 0x1d, 1]);
        assert_eq!(frame.len(), 33);
    }

    #[test]
    fn answers_are_those_of_the_table() {
        assert_eq!(
            Answer::Signed(b"s1".to_vec()).frame(1),
            b"\0\0\0\x0f\x65\0\0\0\0\0\0\0\x01\0\0\0\x02s1"
        );
        for (answer, kind) in [
            (Answer::Refused, 102),
            (Answer::True, 103),
            (Answer::False, 104),
        ] {
            assert_eq!(
                answer.frame(0x0203),
                [0, 0, 0, 9, kind, 0, 0, 0, 0, 0, 0, 2, 3]
            );
        }
    }

    #[test]
    fn a_body_is_malformed_where_it_is_cut_or_followed() {
        let mut body = vec![VERIFY, 0, 0, 0, 0, 0, 0, 0, 7];
        for field in [&b"host"[..], b"signature", b"session"] {
            body.put_string(field);
        }
        assert!(matches!(Ask::read(&body), Ok(Ask { number: 7, .. })));
        for cut in 0..body.len() {
            assert!(Ask::read(&body[..cut]).is_err());
        }
        body.push(0);
        assert!(Ask::read(&body).is_err());
    }

    #[test]
    fn a_question_to_the_user_is_malformed() {
        let mut body = vec![3, 0, 0, 0, 0, 0, 0, 0, 1];
        body.put_string(b"Allow?");
        assert!(Ask::read(&body).is_err());
    }
}
