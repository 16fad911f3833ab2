use crate::wire::Malformed;
use openssl::error::ErrorStack;

/// A key that doesn't fit, or a signature that can't be made. Why isn't kept.
pub struct Refused;

impl From<Malformed> for Refused {
    fn from(_: Malformed) -> Self {
        Refused
    }
}

impl From<ErrorStack> for Refused {
    fn from(_: ErrorStack) -> Self {
        Refused
    }
}

impl Refused {
    /// Refuses where the fact doesn't hold.
    pub fn unless(fact: bool) -> Result<(), Refused> {
        if fact {
            Ok(())
        } else {
            Err(Refused)
        }
    }
}
