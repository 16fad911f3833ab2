//! The program from its words to its end.

use crate::ecdsa::Curves;
use crate::fault::Fault;
use crate::frame;
use crate::serve::{fill, Answerer};
use crate::standin::{decode, Hosts};
use std::ffi::{OsStr, OsString};
use std::fs::File;
use std::io::{self, Write};
use std::os::unix::io::AsFd;
use std::os::unix::net::UnixStream;
use zeroize::Zeroizing;

/// The most bytes of DATA.
const LONGEST_DATA: usize = 1_048_576;

/// The variable that holds the ticket where the words have a `-` in its place: words can be read by
/// every process of the machine.
pub const TICKET: &str = "MORTARLEEK_TICKET";

/// Puts the ticket where a `-` stands for it. Without one the words stay as they are, and are refused.
pub fn put_ticket(words: &mut [OsString], ticket: Option<OsString>) {
    if let (Some(word), Some(ticket)) = (words.get_mut(2), ticket) {
        if word == "-" {
            *word = ticket;
        }
    }
}

/// SOCKET JOB TICKET and, where there are hosts of stand-in keys, DATA.
pub struct Words<'a> {
    socket: &'a OsStr,
    job: u64,
    ticket: [u8; 16],
    data: Option<&'a OsStr>,
}

impl<'a> Words<'a> {
    pub fn read(words: &'a [OsString]) -> Option<Self> {
        let (socket, job, ticket, data) = match words {
            [socket, job, ticket] => (socket, job, ticket, None),
            [socket, job, ticket, data] => (socket, job, ticket, Some(data.as_os_str())),
            _ => return None,
        };
        let mut bytes = [0; 16];
        decode(ticket.to_str()?.as_bytes(), &mut bytes)?;
        Some(Words {
            socket,
            job: decimal(job.to_str()?)?,
            ticket: bytes,
            data,
        })
    }
}

/// A number in decimal digits, without leading zeros, below 2^64.
fn decimal(digits: &str) -> Option<u64> {
    let number: u64 = digits.parse().ok()?;
    (number.to_string() == digits).then(|| number)
}

/// The connection to the agent: the standard input where SOCKET is `-`, and else that to a socket
/// at this path.
fn agent_at(socket: &OsStr) -> io::Result<UnixStream> {
    if socket == "-" {
        Ok(io::stdin().as_fd().try_clone_to_owned()?.into())
    } else {
        UnixStream::connect(socket)
    }
}

/// Says which job it is, and answers until the agent ends.
pub fn run(words: &[OsString]) -> Result<(), Fault> {
    let words = Words::read(words).ok_or(Fault::Usage)?;
    let hosts = words
        .data
        .map_or_else(|| Ok(Hosts::default()), read_hosts)?;
    let mut agent = agent_at(words.socket).map_err(|_| Fault::WriteFault)?;
    agent
        .write_all(&frame::hello(words.job, &words.ticket))
        .map_err(|_| Fault::WriteFault)?;
    let curves = Curves::new().map_err(|_| Fault::Memory)?;
    Answerer::new(curves, hosts).serve(&mut agent)
}

fn read_hosts(path: &OsStr) -> Result<Hosts, Fault> {
    let mut file = File::open(path).map_err(|_| Fault::FileFault)?;
    let mut text = Zeroizing::new(vec![0; LONGEST_DATA + 1]);
    let length = fill(&mut file, &mut text).map_err(|_| Fault::FileFault)?;
    if length > LONGEST_DATA {
        return Err(Fault::FileFault);
    }
    text.get(..length)
        .and_then(Hosts::read)
        .ok_or(Fault::BadFile)
}

#[cfg(test)]
mod tests {
    use super::*;

    fn read(words: &[&str]) -> bool {
        let words: Vec<OsString> = words.iter().map(OsString::from).collect();
        Words::read(&words).is_some()
    }

    #[test]
    fn a_ticket_of_the_environment_stands_where_a_dash_does() {
        let ticket = OsString::from("0123456789abcdefABCDEF0123456789");
        for (word, given, wanted) in [
            (
                "-",
                Some(ticket.clone()),
                "0123456789abcdefABCDEF0123456789",
            ),
            ("-", None, "-"),
            ("00", Some(ticket), "00"),
        ] {
            let mut words = ["s", "1", word].map(OsString::from);
            put_ticket(&mut words, given);
            assert_eq!(words[2], wanted);
        }
        assert!(!read(&["s", "1", "-"]));
    }

    #[test]
    fn three_or_four_words_are_read() {
        let ticket = "0123456789abcdefABCDEF0123456789";
        assert!(read(&["s", "0", ticket]));
        assert!(read(&["s", "18446744073709551615", ticket, "data"]));
        assert!(!read(&["s", "18446744073709551616", ticket]));
        for job in ["", "+1", "-1", "01", " 1", "1x"] {
            assert!(!read(&["s", job, ticket]));
        }
        assert!(!read(&["s", "1", &ticket[1..]]));
        assert!(!read(&["s", "1", "g123456789abcdefABCDEF0123456789"]));
        assert!(!read(&["s", "1"]));
        assert!(!read(&["s", "1", ticket, "data", "more"]));
    }
}
