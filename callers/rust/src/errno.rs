//! Refusals.

use core::{error, fmt};

/// A refusal: a number of errno(3), as Linux has them on x86-64 and arm64.
#[derive(Clone, Copy, Debug, PartialEq, Eq, Hash)]
pub struct Errno(pub i32);

macro_rules! errnos {
    ($($(#[$text:meta])* $name:ident = $number:literal;)*) => {
        impl Errno {
            $($(#[$text])* pub const $name: Errno = Errno($number);)*

            /// Its name, if it is one that the tables' calls answer.
            pub fn name(self) -> Option<&'static str> {
                match self {
                    $(Errno::$name => Some(stringify!($name)),)*
                    _ => None,
                }
            }
        }
    };
}

errnos! {
    /// The number is no open socket of the worker.
    EBADF = 9;
    /// Others were in the way for as often as the call tried: it can be made again.
    EAGAIN = 11;
    /// Memory ran out: the sockets stand as they did.
    ENOMEM = 12;
    /// The socket's state, an end or another argument doesn't fit the call.
    EINVAL = 22;
    /// No slot is free.
    ENFILE = 23;
    /// There is no place in a group of listeners.
    EMFILE = 24;
    /// No call or no number is left.
    EOVERFLOW = 75;
    /// As many workers or lookers are out as there may be.
    EUSERS = 87;
    /// Another owner of the port stands in the way.
    EADDRINUSE = 98;
    /// Another socket has the four-tuple, or no port that was searched can be had.
    EADDRNOTAVAIL = 99;
    /// One of the worker's last calls was ENFILE, as its limits count them, and this one did not look for a slot.
    ENOBUFS = 105;
    /// The socket listens or is connected.
    EISCONN = 106;
}

#[cfg(feature = "std")]
impl From<Errno> for std::io::Error {
    fn from(errno: Errno) -> Self {
        std::io::Error::from_raw_os_error(errno.0)
    }
}

impl fmt::Display for Errno {
    /// Its name, or the number of another errno.
    fn fmt(&self, f: &mut fmt::Formatter<'_>) -> fmt::Result {
        match self.name() {
            Some(name) => f.write_str(name),
            None => write!(f, "errno {}", self.0),
        }
    }
}

impl error::Error for Errno {}
