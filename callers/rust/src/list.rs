//! One list of sockets.

use crate::{Errno, Item, Options, Sight, Sizes, Socket, raw};
use alloc::vec::Vec;
use core::net::{Ipv4Addr, SocketAddrV4};

/// One list of sockets, with workers 1 to 64.
pub struct List(raw::List);

impl List {
    /// A list without sockets. EINVAL: the sizes are none that tables may have; ENOMEM.
    pub fn new(sizes: &Sizes) -> Result<Self, Errno> {
        raw::List::new(sizes).map(List)
    }

    /// A new socket of that worker, 1 to 64. EINVAL: there is no such worker, or no such namespace.
    pub fn socket(&mut self, worker: u32, options: Options) -> Result<Socket, Errno> {
        self.0.socket(worker, &options).map(|number| Socket { worker, number })
    }

    /// Binds a socket, and reports its port.
    pub fn bind(&mut self, s: Socket, end: SocketAddrV4) -> Result<u16, Errno> {
        self.0.bind(s.worker, s.number, end)
    }

    /// Lets a socket listen, and reports its port.
    pub fn listen(&mut self, s: Socket) -> Result<u16, Errno> {
        self.0.listen(s.worker, s.number)
    }

    /// Connects a socket, and reports its own end. `from` is its address, where `bind` hasn't named one.
    pub fn connect(&mut self, s: Socket, from: Option<Ipv4Addr>, to: SocketAddrV4) -> Result<SocketAddrV4, Errno> {
        self.0.connect(s.worker, s.number, from, to)
    }

    /// A listener takes a connection from one end at another.
    pub fn accept(&mut self, l: Socket, from: SocketAddrV4, at: SocketAddrV4) -> Result<Socket, Errno> {
        let number = self.0.accept(l.worker, l.number, from, at)?;
        Ok(Socket { number, ..l })
    }

    /// A handshake with a listener begins, from one end at another.
    pub fn syn(&mut self, l: Socket, from: SocketAddrV4, at: SocketAddrV4) -> Result<Socket, Errno> {
        let number = self.0.syn(l.worker, l.number, from, at)?;
        Ok(Socket { number, ..l })
    }

    /// A request's handshake is over, and its listener takes the connection, in the request's place.
    pub fn ack(&mut self, request: Socket) -> Result<Socket, Errno> {
        let number = self.0.ack(request.worker, request.number)?;
        Ok(Socket { number, ..request })
    }

    /// Closes a socket, and reports whether a TIME_WAIT stays.
    pub fn close(&mut self, s: Socket) -> Result<bool, Errno> {
        self.0.close(s.worker, s.number)
    }

    /// Closes a socket without a trace.
    pub fn drop_socket(&mut self, s: Socket) -> Result<(), Errno> {
        self.0.drop_socket(s.worker, s.number)
    }

    /// Sets the worker's moment, in seconds.
    pub fn at(&mut self, worker: u32, moment: u32) -> Result<(), Errno> {
        self.0.at(worker, moment)
    }

    /// Ends the worker's TIME_WAITs that have lasted 60 seconds, and reports how many.
    pub fn reap(&mut self, worker: u32) -> Result<u64, Errno> {
        self.0.reap(worker)
    }

    /// Which socket takes a packet that came in at that device in that namespace. EINVAL: there is no such namespace.
    pub fn look(&mut self, from: SocketAddrV4, to: SocketAddrV4, dev: u16, net: u8) -> Result<Option<Sight>, Errno> {
        self.0.look(from, to, dev, net)
    }

    /// All sockets that packets can find, by their workers, and those of one in the order in which they were made.
    pub fn items(&mut self) -> Result<Vec<Item>, Errno> {
        self.0.items()
    }
}
