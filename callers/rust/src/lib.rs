//! Linux's TCP socket tables for IPv4 in safe Rust, over the library `inet_c`.
//!
//! A [`List`] is one list of sockets. [`Tables`] are for several threads at once: they hand out a [`Worker`] for each
//! that opens and closes sockets, and a [`Looker`] for each that looks packets up.
//!
//! ../inet_tables.h says what each call does, and what a caller owes. Here the types see to that: each value owns its
//! handle, so it is made once, at one call at a time, and given up once; it has the calls that are for it alone; and
//! the numbers that a call writes are its own.
//!
//! It takes `core` and `alloc` alone, and with the feature `std`, which is on by default, makes std's errors of its
//! refusals. The library's memory comes from malloc, realloc and free of the C library.
#![no_std]
#![warn(missing_docs)]

extern crate alloc;
#[cfg(feature = "std")]
extern crate std;

mod errno;
mod heap;
mod list;
mod raw;
mod shared;

pub use errno::Errno;
pub use list::List;
pub use shared::{Looker, Tables, Worker};

use core::net::SocketAddrV4;

/// The sizes of tables: ../inet_tables.h has their ranges.
#[derive(Clone, Copy, Debug)]
pub struct Sizes {
    /// How many sockets may be hashed at a time, TIME_WAITs among them.
    pub slots: u32,
    /// How many bind buckets there are.
    pub bind: u32,
    /// How many established buckets.
    pub hash: u32,
    /// How many listening buckets.
    pub listen: u32,
    /// What searches and hashes start from.
    pub seed: u32,
    /// The lowest port of searches.
    pub low: u16,
    /// The highest.
    pub high: u16,
    /// Whether `connect` may take the place of a TIME_WAIT (tcp_tw_reuse).
    pub twreuse: bool,
    /// Where each search begins, from `low` on round the range; without it at a port that is drawn.
    pub offset: Option<u16>,
    /// Ports that no search takes (ip_local_reserved_ports).
    pub reserved: Reserved,
}

/// Ports that are kept from searches, 64 at most; by default none.
#[derive(Clone, Copy, Debug)]
pub struct Reserved {
    ports: [u16; 64],
    count: u8,
}

impl Reserved {
    /// No port.
    pub const NONE: Reserved = Reserved { ports: [0; 64], count: 0 };

    /// These ports, in whatever order. None: they are more than 64.
    pub fn of(ports: &[u16]) -> Option<Self> {
        let mut reserved = Reserved::NONE;
        reserved.ports.get_mut(..ports.len())?.copy_from_slice(ports);
        reserved.count = ports.len() as u8;
        Some(reserved)
    }
}

impl Default for Reserved {
    fn default() -> Self {
        Reserved::NONE
    }
}

impl Default for Sizes {
    /// The sizes of a script that names none.
    fn default() -> Self {
        Sizes {
            slots: 1024,
            bind: 16,
            hash: 256,
            listen: 32,
            seed: 0,
            low: 32768,
            high: 60999,
            twreuse: false,
            offset: None,
            reserved: Reserved::NONE,
        }
    }
}

/// The limits of a worker, by default none, and one try.
#[derive(Clone, Copy, Debug, Default)]
pub struct Limits {
    /// Where another worker has what a call needs, it tries as often again, and then is EAGAIN.
    pub tries: u64,
    /// With so many TIME_WAITs of its own [`Worker::close`] leaves none, until some are reaped; 0: no limit.
    pub most_waits: u64,
    /// After ENFILE none of the worker's next calls, as many as this, looks for a slot: those that take one are
    /// ENOBUFS.
    pub full_for: u64,
}

/// A socket, by its worker and its number.
#[derive(Clone, Copy, Debug, PartialEq, Eq, Hash)]
pub struct Socket {
    /// The number of its worker.
    pub worker: u32,
    /// Its own number, which no other socket of that worker ever has.
    pub number: u64,
}

/// What a new socket is.
#[derive(Clone, Copy, Debug, Default)]
pub struct Options {
    /// Its network namespace, 0 to 15.
    pub net: u8,
    /// Its user.
    pub uid: u32,
    /// Its device, or 0 for none.
    pub dev: u16,
    /// SO_REUSEADDR.
    pub reuseaddr: bool,
    /// SO_REUSEPORT.
    pub reuseport: bool,
    /// IP_BIND_ADDRESS_NO_PORT.
    pub bind_address_no_port: bool,
}

/// A packet of a batch.
#[derive(Clone, Copy, Debug, PartialEq, Eq)]
pub struct Packet {
    /// Where it comes from.
    pub from: SocketAddrV4,
    /// Where it goes.
    pub to: SocketAddrV4,
    /// The device by which it came in.
    pub dev: u16,
    /// Its network namespace.
    pub net: u8,
}

/// The state of an open socket.
#[derive(Clone, Copy, Debug, PartialEq, Eq)]
pub enum State {
    /// It is connected.
    Connected,
    /// It listens.
    Listening,
    /// It is a request.
    Request,
    /// It has a port.
    Bound,
    /// It has none.
    Unbound,
}

/// An open socket of a worker.
#[derive(Clone, Copy, Debug, PartialEq, Eq)]
pub struct Open {
    /// Its state.
    pub state: State,
    /// Its own end; without a port it may have an address.
    pub own: SocketAddrV4,
    /// The other's, 0.0.0.0:0 where it has none.
    pub peer: SocketAddrV4,
    /// Its device, or 0 for none.
    pub dev: u16,
    /// Its network namespace.
    pub net: u8,
}

/// What is left to a worker, beside what is kept for calls that end sockets.
#[derive(Clone, Copy, Debug, PartialEq, Eq)]
pub struct Left {
    /// Sockets that it may make.
    pub sockets: u64,
    /// Entries of bind buckets, of which a call takes 65,540 at most.
    pub entries: u64,
    /// Numbers of the clock, of which a call takes 7 at most.
    pub stamps: u64,
    /// Its TIME_WAITs.
    pub waits: u64,
}

/// What takes a packet.
#[derive(Clone, Copy, Debug, PartialEq, Eq)]
pub enum Sight {
    /// A connection.
    Connected(Socket),
    /// What a connection that was closed has left.
    TimeWait(Socket),
    /// A listener.
    Listener(Socket),
    /// A handshake that isn't over.
    Request(Socket),
}

impl Sight {
    /// The socket that takes it.
    pub fn socket(self) -> Socket {
        match self {
            Sight::Connected(s) | Sight::TimeWait(s) | Sight::Listener(s) | Sight::Request(s) => s,
        }
    }
}

/// What a looker found: a socket of shared tables, and the mark that it was given.
#[derive(Clone, Copy, Debug, PartialEq, Eq)]
pub struct Found {
    /// What takes the packet.
    pub sight: Sight,
    /// Its mark, such as the place of the caller's object for it.
    pub mark: u32,
}

/// A socket of a list.
#[derive(Clone, Copy, Debug, PartialEq, Eq)]
pub struct Item {
    /// Which it is.
    pub sight: Sight,
    /// Its own end.
    pub own: SocketAddrV4,
    /// The other's, 0.0.0.0:0 for a listener.
    pub peer: SocketAddrV4,
    /// Its device, or 0 for none.
    pub dev: u16,
    /// Its network namespace.
    pub net: u8,
}
