//! Tables that threads share, and what they hand out.

use crate::{Errno, Found, Left, Limits, Open, Options, Packet, Sizes, Socket, raw};
use alloc::boxed::Box;
use alloc::vec::Vec;
use core::net::{Ipv4Addr, SocketAddrV4};

/// Tables that threads share. They hand out workers and lookers, and go with the last of all these.
pub struct Tables(raw::Tables);

impl Tables {
    /// Tables without sockets. EINVAL: the sizes are none that tables may have; ENOMEM.
    pub fn new(sizes: &Sizes) -> Result<Self, Errno> {
        raw::Tables::new(sizes).map(Tables)
    }

    /// A worker under these limits: the one that was given back last, with its sockets, or the next. EUSERS: 255 are
    /// out; ENOMEM.
    pub fn worker(&mut self, limits: Limits) -> Result<Worker, Errno> {
        let (handle, number) = self.0.worker(&limits)?;
        Ok(Worker { handle: Box::new(handle), number })
    }

    /// A looker. EUSERS: 16,000 are out; ENOMEM.
    pub fn looker(&mut self) -> Result<Looker, Errno> {
        self.0.looker().map(|handle| Looker(Box::new(handle)))
    }

    /// Takes a worker back, with its sockets, for the next who asks for one. EINVAL: it is of other tables, and comes
    /// back.
    pub fn take_back(&mut self, mut worker: Worker) -> Result<(), (Errno, Worker)> {
        self.0.take_back(&mut worker.handle).map_err(|errno| (errno, worker))
    }

    /// Takes a looker back. EINVAL: it is of other tables, and comes back.
    pub fn take_looker_back(&mut self, mut looker: Looker) -> Result<(), (Errno, Looker)> {
        self.0.take_looker_back(&mut looker.0).map_err(|errno| (errno, looker))
    }
}

/// A worker of shared tables, with sockets, a moment and searches of its own. Another worker's [`Socket`] is EINVAL.
///
/// Each call may answer EAGAIN: another worker was in the way. The worker's sockets stand as they did then, and the
/// call can be made again. A worker that is dropped is lost to its tables, and its sockets stay until they go: it can
/// be given back in place of that.
pub struct Worker {
    handle: Box<raw::Worker>,
    number: u32,
}

impl Worker {
    /// Its number, from 1 on, by which its sockets are distinguished from those of other workers.
    pub fn number(&self) -> u32 {
        self.number
    }

    /// The number of a socket of its own; another worker's is EINVAL.
    fn own(&self, s: Socket) -> Result<u64, Errno> {
        if s.worker == self.number { Ok(s.number) } else { Err(Errno::EINVAL) }
    }

    fn named(&self, number: u64) -> Socket {
        Socket { worker: self.number, number }
    }

    /// A new socket, with that mark, which lookups answer. EINVAL: there is no such namespace.
    pub fn socket(&mut self, options: Options, mark: u32) -> Result<Socket, Errno> {
        self.handle.socket(&options, mark).map(|number| self.named(number))
    }

    /// Binds a socket, and reports its port.
    pub fn bind(&mut self, s: Socket, end: SocketAddrV4) -> Result<u16, Errno> {
        self.handle.bind(self.own(s)?, end)
    }

    /// Lets a socket listen, and reports its port.
    pub fn listen(&mut self, s: Socket) -> Result<u16, Errno> {
        self.handle.listen(self.own(s)?)
    }

    /// Connects a socket, and reports its own end. `from` is its address, where `bind` hasn't named one.
    pub fn connect(&mut self, s: Socket, from: Option<Ipv4Addr>, to: SocketAddrV4) -> Result<SocketAddrV4, Errno> {
        self.handle.connect(self.own(s)?, from, to)
    }

    /// A listener takes a connection from one end at another. The mark is the connected socket's.
    pub fn accept(&mut self, l: Socket, from: SocketAddrV4, at: SocketAddrV4, mark: u32) -> Result<Socket, Errno> {
        self.handle.accept(self.own(l)?, from, at, mark).map(|number| self.named(number))
    }

    /// A handshake with a listener begins, from one end at another. The mark is its request's.
    pub fn syn(&mut self, l: Socket, from: SocketAddrV4, at: SocketAddrV4, mark: u32) -> Result<Socket, Errno> {
        self.handle.syn(self.own(l)?, from, at, mark).map(|number| self.named(number))
    }

    /// A request's handshake is over, and its listener takes the connection, in the request's place. The mark is the
    /// connected socket's.
    pub fn ack(&mut self, request: Socket, mark: u32) -> Result<Socket, Errno> {
        self.handle.ack(self.own(request)?, mark).map(|number| self.named(number))
    }

    /// Closes a socket, and reports whether a TIME_WAIT stays: none where no slot is free for it, or where the worker
    /// has as many as its limits say.
    pub fn close(&mut self, s: Socket) -> Result<bool, Errno> {
        self.handle.close(self.own(s)?)
    }

    /// Closes a socket without a trace.
    pub fn drop_socket(&mut self, s: Socket) -> Result<(), Errno> {
        self.handle.drop_socket(self.own(s)?)
    }

    /// The open socket of the lowest number above that one, if there is one: from 0 on each of them in turn. It takes
    /// no memory, and no time for sockets that are gone.
    pub fn next_open(&mut self, after: u64) -> Result<Option<Socket>, Errno> {
        let next = self.handle.next_open(after)?;
        Ok(next.map(|number| self.named(number)))
    }

    /// What an open socket is. EBADF: it isn't open.
    pub fn ask(&mut self, s: Socket) -> Result<Open, Errno> {
        self.handle.ask(self.own(s)?)
    }

    /// What is left to it.
    pub fn left(&mut self) -> Result<Left, Errno> {
        self.handle.left()
    }

    /// The least moment, in seconds, at which one of its TIME_WAITs has lasted its minute.
    pub fn next_over(&mut self) -> Result<Option<u32>, Errno> {
        self.handle.next_over()
    }

    /// The clock as its last call left it. A lookup that begins there or later meets what its calls
    /// had hashed.
    pub fn now(&mut self) -> Result<u64, Errno> {
        self.handle.now()
    }

    /// Sets the moment, in seconds.
    pub fn at(&mut self, moment: u32) -> Result<(), Errno> {
        self.handle.at(moment)
    }

    /// Ends the TIME_WAITs that have lasted 60 seconds, and reports how many. After EAGAIN some of them are over.
    pub fn reap(&mut self) -> Result<u64, Errno> {
        self.handle.reap()
    }

    /// [`Worker::reap`] of so many TIME_WAITs at most: how many were there, and whether more of them have lasted 60
    /// seconds.
    pub fn reap_most(&mut self, most: u64) -> Result<(u64, bool), Errno> {
        self.handle.reap_most(most)
    }
}

/// A looker in shared tables: its lookups lock nothing, wait for nobody and take no memory.
pub struct Looker(Box<raw::Looker>);

impl Looker {
    /// Which socket takes a packet that came in at that device in that namespace. EAGAIN: others changed a chain of
    /// sockets at each of 16 passes through it; EINVAL: there is no such namespace.
    pub fn look(&mut self, from: SocketAddrV4, to: SocketAddrV4, dev: u16, net: u8) -> Result<Option<Found>, Errno> {
        self.0.look(&Packet { from, to, dev, net }, 0)
    }

    /// [`Looker::look`] from a number of the clock on. EAGAIN: as of `look`, or it began before the clock was at
    /// `after`, which none does once [`Worker::now`] has answered that number.
    pub fn look_after(&mut self, packet: &Packet, after: u64) -> Result<Option<Found>, Errno> {
        self.0.look(packet, after)
    }

    /// [`Looker::look_after`] for each packet, in their order.
    pub fn look_all(&mut self, packets: &[Packet], after: u64) -> Result<Vec<Result<Option<Found>, Errno>>, Errno> {
        self.0.look_all(packets, after)
    }
}
