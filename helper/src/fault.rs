use crate::wire::Malformed;

/// Why the program ended before its peer did.
#[derive(Clone, Copy)]
pub enum Fault {
    /// A length outside 1 to 1048576, or a body that isn't an ask.
    BadFrame = 1,
    /// Other words than SOCKET JOB TICKET [DATA].
    Usage = 2,
    /// DATA can't be read, or has more than 1048576 bytes.
    FileFault = 3,
    /// DATA has a line of another form.
    BadFile = 4,
    /// Memory, or its protection, isn't to be had.
    Memory = 5,
    /// Reading from the agent failed.
    ReadFault = 6,
    /// Connecting or writing to the agent failed.
    WriteFault = 7,
    /// The agent ended within a frame.
    TornEnd = 8,
}

impl Fault {
    /// The exit status.
    pub fn status(self) -> u8 {
        self as u8
    }

    /// What standard error is told.
    pub fn text(self) -> &'static str {
        match self {
            Fault::BadFrame => "the agent sent a frame that is none",
            Fault::Usage => "usage: mortarleek-helper SOCKET JOB TICKET [DATA]",
            Fault::FileFault => "the file of hosts can't be read",
            Fault::BadFile => "the file of hosts has a line of another form",
            Fault::Memory => "memory, or its protection, isn't to be had",
            Fault::ReadFault => "the agent can't be heard",
            Fault::WriteFault => "the agent can't be reached",
            Fault::TornEnd => "the agent ended within a frame",
        }
    }
}

impl From<Malformed> for Fault {
    fn from(_: Malformed) -> Self {
        Fault::BadFrame
    }
}
