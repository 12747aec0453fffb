//! The handles, the library's exports, and each of its calls: all that is unsafe in this crate but ../src/heap.rs.

use crate::{Errno, Found, Item, Left, Limits, Open, Options, Packet, Sight, Sizes, Socket, State};
use alloc::vec;
use alloc::vec::Vec;
use core::ffi::c_void;
use core::net::{Ipv4Addr, SocketAddrV4};
use core::ptr::null_mut;
use core::sync::atomic::{AtomicU64, Ordering};

#[repr(C)]
struct RawSizes {
    size: u32,
    slots: u32,
    bind: u32,
    hash: u32,
    listen: u32,
    seed: u32,
    low: u16,
    high: u16,
    twreuse: bool,
    has_offset: bool,
    offset: u16,
    reserved: [u16; 64],
    reserved_count: u8,
}

#[repr(C)]
struct RawLimits {
    size: u32,
    tries: u64,
    most_waits: u64,
    full_for: u64,
}

#[repr(C)]
#[derive(Default)]
struct RawLeft {
    sockets: u64,
    entries: u64,
    stamps: u64,
    waits: u64,
}

#[repr(C)]
struct RawPacket {
    src: u32,
    dst: u32,
    sport: u16,
    dport: u16,
    dev: u16,
    net: u8,
}

#[repr(C)]
#[derive(Clone, Copy, Default)]
struct RawSight {
    kind: u32,
    worker: u32,
    socket: u64,
    mark: u32,
}

#[repr(C)]
#[derive(Clone, Copy, Default)]
struct RawItem {
    kind: u32,
    worker: u32,
    socket: u64,
    addr: u32,
    peer_addr: u32,
    port: u16,
    peer_port: u16,
    dev: u16,
    net: u8,
}

// `.ci/header` compares these with the exports of crates/inet_c/src, by name, type and order.
unsafe extern "C" {
    fn inet_list_new(list: &mut List, sizes: &RawSizes) -> i32;
    fn inet_list_free(list: &mut List);
    fn inet_tables_new(tables: &mut Tables, sizes: &RawSizes, tag: u64) -> i32;
    fn inet_tables_worker(tables: &mut Tables, limits: &RawLimits, worker: &mut Worker, number: &mut u32) -> i32;
    fn inet_tables_looker(tables: &mut Tables, looker: &mut Looker) -> i32;
    fn inet_tables_free(tables: &mut Tables);
    fn inet_worker_give_back(worker: &mut Worker, tables: &mut Tables) -> i32;
    fn inet_worker_free(worker: &mut Worker);
    fn inet_looker_give_back(looker: &mut Looker, tables: &mut Tables) -> i32;
    fn inet_looker_free(looker: &mut Looker);
    fn inet_list_socket(list: &mut List, worker: u32, net: u8, uid: u32, dev: u16, flags: u32, socket: &mut u64) -> i32;
    fn inet_list_bind(list: &mut List, worker: u32, socket: u64, addr: u32, port: u16, bound: &mut u16) -> i32;
    fn inet_list_listen(list: &mut List, worker: u32, socket: u64, bound: &mut u16) -> i32;
    fn inet_list_connect(
        list: &mut List,
        worker: u32,
        socket: u64,
        from: u32,
        to_addr: u32,
        to_port: u16,
        addr: &mut u32,
        port: &mut u16,
    ) -> i32;
    fn inet_list_accept(
        list: &mut List,
        worker: u32,
        listener: u64,
        from_addr: u32,
        from_port: u16,
        at_addr: u32,
        at_port: u16,
        socket: &mut u64,
    ) -> i32;
    fn inet_list_syn(
        list: &mut List,
        worker: u32,
        listener: u64,
        from_addr: u32,
        from_port: u16,
        at_addr: u32,
        at_port: u16,
        request: &mut u64,
    ) -> i32;
    fn inet_list_ack(list: &mut List, worker: u32, request: u64, socket: &mut u64) -> i32;
    fn inet_list_close(list: &mut List, worker: u32, socket: u64, waits: &mut bool) -> i32;
    fn inet_list_drop(list: &mut List, worker: u32, socket: u64) -> i32;
    fn inet_list_at(list: &mut List, worker: u32, moment: u32) -> i32;
    fn inet_list_reap(list: &mut List, worker: u32, count: &mut u64) -> i32;
    fn inet_list_look(
        list: &mut List,
        src: u32,
        sport: u16,
        dst: u32,
        dport: u16,
        dev: u16,
        net: u8,
        sight: &mut RawSight,
    ) -> i32;
    fn inet_list_items(list: &mut List, items: *mut RawItem, room: usize, count: &mut u64) -> i32;
    fn inet_worker_socket(
        worker: &mut Worker,
        net: u8,
        uid: u32,
        dev: u16,
        flags: u32,
        mark: u32,
        socket: &mut u64,
    ) -> i32;
    fn inet_worker_bind(worker: &mut Worker, socket: u64, addr: u32, port: u16, bound: &mut u16) -> i32;
    fn inet_worker_listen(worker: &mut Worker, socket: u64, bound: &mut u16) -> i32;
    fn inet_worker_connect(
        worker: &mut Worker,
        socket: u64,
        from: u32,
        to_addr: u32,
        to_port: u16,
        addr: &mut u32,
        port: &mut u16,
    ) -> i32;
    fn inet_worker_accept(
        worker: &mut Worker,
        listener: u64,
        from_addr: u32,
        from_port: u16,
        at_addr: u32,
        at_port: u16,
        mark: u32,
        socket: &mut u64,
    ) -> i32;
    fn inet_worker_syn(
        worker: &mut Worker,
        listener: u64,
        from_addr: u32,
        from_port: u16,
        at_addr: u32,
        at_port: u16,
        mark: u32,
        request: &mut u64,
    ) -> i32;
    fn inet_worker_ack(worker: &mut Worker, request: u64, mark: u32, socket: &mut u64) -> i32;
    fn inet_worker_close(worker: &mut Worker, socket: u64, waits: &mut bool) -> i32;
    fn inet_worker_drop(worker: &mut Worker, socket: u64) -> i32;
    fn inet_worker_at(worker: &mut Worker, moment: u32) -> i32;
    fn inet_worker_reap(worker: &mut Worker, count: &mut u64) -> i32;
    fn inet_worker_reap_most(worker: &mut Worker, most: u64, count: &mut u64, more: &mut bool) -> i32;
    fn inet_worker_next_open(worker: &mut Worker, after: u64, socket: &mut u64) -> i32;
    fn inet_worker_ask(worker: &mut Worker, socket: u64, item: &mut RawItem) -> i32;
    fn inet_worker_left(worker: &mut Worker, left: &mut RawLeft) -> i32;
    fn inet_worker_next_over(worker: &mut Worker, moment: &mut u64) -> i32;
    fn inet_worker_now(worker: &mut Worker, clock: &mut u64) -> i32;
    fn inet_looker_look(
        looker: &mut Looker,
        src: u32,
        sport: u16,
        dst: u32,
        dport: u16,
        dev: u16,
        net: u8,
        after: u64,
        sight: &mut RawSight,
    ) -> i32;
    fn inet_looker_look_all(
        looker: &mut Looker,
        packets: *const RawPacket,
        count: usize,
        after: u64,
        sights: *mut RawSight,
        room: usize,
    ) -> i32;
}

/// A handle of its own: it is made once, lent to one call at a time, and given up once. Each call writes it, so no two
/// handles share a cache line.
macro_rules! handle {
    ($name:ident, $free:ident) => {
        #[repr(C, align(128))]
        pub struct $name {
            at: *mut c_void,
        }

        // SAFETY: what a handle holds belongs to no thread, and what it shares with other handles is atomic. Whatever
        // brings a value to another thread orders what was done to it before, as a lock does.
        unsafe impl Send for $name {}

        impl $name {
            fn empty() -> Self {
                $name { at: null_mut() }
            }
        }

        impl Drop for $name {
            fn drop(&mut self) {
                // SAFETY: the handle is this value's, and nobody uses it again.
                unsafe { $free(self) }
            }
        }
    };
}

handle!(List, inet_list_free);
handle!(Tables, inet_tables_free);
handle!(Worker, inet_worker_free);
handle!(Looker, inet_looker_free);

fn done(errno: i32) -> Result<(), Errno> {
    if errno == 0 { Ok(()) } else { Err(Errno(errno)) }
}

impl From<&Sizes> for RawSizes {
    fn from(sizes: &Sizes) -> Self {
        let Sizes { slots, bind, hash, listen, seed, low, high, twreuse, offset, reserved } = *sizes;
        RawSizes {
            size: size_of::<RawSizes>() as u32,
            slots,
            bind,
            hash,
            listen,
            seed,
            low,
            high,
            twreuse,
            has_offset: offset.is_some(),
            offset: offset.unwrap_or(0),
            reserved: reserved.ports,
            reserved_count: reserved.count,
        }
    }
}

impl From<&Limits> for RawLimits {
    fn from(limits: &Limits) -> Self {
        let Limits { tries, most_waits, full_for } = *limits;
        RawLimits { size: size_of::<RawLimits>() as u32, tries, most_waits, full_for }
    }
}

fn flags_of(options: &Options) -> u32 {
    u32::from(options.reuseaddr) + 2 * u32::from(options.reuseport) + 4 * u32::from(options.bind_address_no_port)
}

impl Tables {
    /// Shared tables, with a tag of their own.
    pub fn new(sizes: &Sizes) -> Result<Self, Errno> {
        static TAGS: AtomicU64 = AtomicU64::new(0);
        let mut tables = Tables::empty();
        let tag = TAGS.fetch_add(1, Ordering::Relaxed);
        // SAFETY: the handle is zero, and nobody else's.
        done(unsafe { inet_tables_new(&mut tables, &sizes.into(), tag) })?;
        Ok(tables)
    }

    /// A worker, with its number.
    pub fn worker(&mut self, limits: &Limits) -> Result<(Worker, u32), Errno> {
        let mut worker = Worker::empty();
        let mut number = 0;
        // SAFETY: as above, and this handle is lent to this call alone; so in all calls below.
        done(unsafe { inet_tables_worker(self, &limits.into(), &mut worker, &mut number) })?;
        Ok((worker, number))
    }

    pub fn looker(&mut self) -> Result<Looker, Errno> {
        let mut looker = Looker::empty();
        // SAFETY: see above.
        done(unsafe { inet_tables_looker(self, &mut looker) })?;
        Ok(looker)
    }

    /// Takes what a worker's handle holds, which holds nothing then.
    pub fn take_back(&mut self, worker: &mut Worker) -> Result<(), Errno> {
        // SAFETY: see above; so is the other handle.
        done(unsafe { inet_worker_give_back(worker, self) })
    }

    /// So of a looker.
    pub fn take_looker_back(&mut self, looker: &mut Looker) -> Result<(), Errno> {
        // SAFETY: see above.
        done(unsafe { inet_looker_give_back(looker, self) })
    }
}

impl Looker {
    pub fn look(&mut self, packet: &Packet, after: u64) -> Result<Option<Found>, Errno> {
        let RawPacket { src, dst, sport, dport, dev, net } = raw_packet(packet);
        let mut sight = RawSight::default();
        // SAFETY: see above.
        done(unsafe { inet_looker_look(self, src, sport, dst, dport, dev, net, after, &mut sight) })?;
        Ok(found_of(&sight))
    }

    /// For each packet which socket takes it, or EAGAIN.
    pub fn look_all(&mut self, packets: &[Packet], after: u64) -> Result<Vec<Result<Option<Found>, Errno>>, Errno> {
        let packets: Vec<RawPacket> = packets.iter().map(raw_packet).collect();
        let mut sights = vec![RawSight::default(); packets.len()];
        // SAFETY: see above; each pointer and the number behind it are of one vector.
        done(unsafe {
            inet_looker_look_all(self, packets.as_ptr(), packets.len(), after, sights.as_mut_ptr(), sights.len())
        })?;
        Ok(sights.iter().map(told_of).collect())
    }
}

impl Worker {
    pub fn socket(&mut self, options: &Options, mark: u32) -> Result<u64, Errno> {
        let Options { net, uid, dev, .. } = *options;
        let mut number = 0;
        // SAFETY: see above.
        done(unsafe { inet_worker_socket(self, net, uid, dev, flags_of(options), mark, &mut number) })?;
        Ok(number)
    }

    pub fn bind(&mut self, socket: u64, end: SocketAddrV4) -> Result<u16, Errno> {
        let (addr, port) = numbers(end);
        let mut bound = 0;
        // SAFETY: see above.
        done(unsafe { inet_worker_bind(self, socket, addr, port, &mut bound) })?;
        Ok(bound)
    }

    pub fn listen(&mut self, socket: u64) -> Result<u16, Errno> {
        let mut bound = 0;
        // SAFETY: see above.
        done(unsafe { inet_worker_listen(self, socket, &mut bound) })?;
        Ok(bound)
    }

    pub fn connect(&mut self, socket: u64, from: Option<Ipv4Addr>, to: SocketAddrV4) -> Result<SocketAddrV4, Errno> {
        let from = from.map_or(0, Ipv4Addr::to_bits);
        let (to_addr, to_port) = numbers(to);
        let (mut addr, mut port) = (0, 0);
        // SAFETY: see above.
        done(unsafe { inet_worker_connect(self, socket, from, to_addr, to_port, &mut addr, &mut port) })?;
        Ok(SocketAddrV4::new(Ipv4Addr::from_bits(addr), port))
    }

    pub fn accept(&mut self, listener: u64, from: SocketAddrV4, at: SocketAddrV4, mark: u32) -> Result<u64, Errno> {
        let (from_addr, from_port) = numbers(from);
        let (at_addr, at_port) = numbers(at);
        let mut number = 0;
        // SAFETY: see above.
        done(unsafe { inet_worker_accept(self, listener, from_addr, from_port, at_addr, at_port, mark, &mut number) })?;
        Ok(number)
    }

    pub fn syn(&mut self, listener: u64, from: SocketAddrV4, at: SocketAddrV4, mark: u32) -> Result<u64, Errno> {
        let (from_addr, from_port) = numbers(from);
        let (at_addr, at_port) = numbers(at);
        let mut number = 0;
        // SAFETY: see above.
        done(unsafe { inet_worker_syn(self, listener, from_addr, from_port, at_addr, at_port, mark, &mut number) })?;
        Ok(number)
    }

    pub fn ack(&mut self, request: u64, mark: u32) -> Result<u64, Errno> {
        let mut number = 0;
        // SAFETY: see above.
        done(unsafe { inet_worker_ack(self, request, mark, &mut number) })?;
        Ok(number)
    }

    pub fn close(&mut self, socket: u64) -> Result<bool, Errno> {
        let mut waits = false;
        // SAFETY: see above.
        done(unsafe { inet_worker_close(self, socket, &mut waits) })?;
        Ok(waits)
    }

    pub fn drop_socket(&mut self, socket: u64) -> Result<(), Errno> {
        // SAFETY: see above.
        done(unsafe { inet_worker_drop(self, socket) })
    }

    pub fn at(&mut self, moment: u32) -> Result<(), Errno> {
        // SAFETY: see above.
        done(unsafe { inet_worker_at(self, moment) })
    }

    pub fn reap(&mut self) -> Result<u64, Errno> {
        let mut count = 0;
        // SAFETY: see above.
        done(unsafe { inet_worker_reap(self, &mut count) })?;
        Ok(count)
    }

    /// How many, and whether there are more.
    pub fn reap_most(&mut self, most: u64) -> Result<(u64, bool), Errno> {
        let (mut count, mut more) = (0, false);
        // SAFETY: see above.
        done(unsafe { inet_worker_reap_most(self, most, &mut count, &mut more) })?;
        Ok((count, more))
    }

    /// The open socket of the lowest number above that one, if there is one.
    pub fn next_open(&mut self, after: u64) -> Result<Option<u64>, Errno> {
        let mut number = 0;
        // SAFETY: see above.
        done(unsafe { inet_worker_next_open(self, after, &mut number) })?;
        Ok((number != 0).then_some(number))
    }

    pub fn ask(&mut self, number: u64) -> Result<Open, Errno> {
        let mut raw = RawItem::default();
        // SAFETY: see above.
        done(unsafe { inet_worker_ask(self, number, &mut raw) })?;
        Ok(open_of(&raw))
    }

    pub fn left(&mut self) -> Result<Left, Errno> {
        let mut raw = RawLeft::default();
        // SAFETY: see above.
        done(unsafe { inet_worker_left(self, &mut raw) })?;
        Ok(Left { sockets: raw.sockets, entries: raw.entries, stamps: raw.stamps, waits: raw.waits })
    }

    /// The moment, if there is one.
    pub fn next_over(&mut self) -> Result<Option<u32>, Errno> {
        let mut moment = 0;
        // SAFETY: see above.
        done(unsafe { inet_worker_next_over(self, &mut moment) })?;
        Ok(u32::try_from(moment).ok())
    }

    pub fn now(&mut self) -> Result<u64, Errno> {
        let mut clock = 0;
        // SAFETY: see above.
        done(unsafe { inet_worker_now(self, &mut clock) })?;
        Ok(clock)
    }
}

impl List {
    pub fn new(sizes: &Sizes) -> Result<Self, Errno> {
        let mut list = List::empty();
        // SAFETY: the handle is zero, and nobody else's.
        done(unsafe { inet_list_new(&mut list, &sizes.into()) })?;
        Ok(list)
    }

    pub fn socket(&mut self, worker: u32, options: &Options) -> Result<u64, Errno> {
        let Options { net, uid, dev, .. } = *options;
        let mut number = 0;
        // SAFETY: see above.
        done(unsafe { inet_list_socket(self, worker, net, uid, dev, flags_of(options), &mut number) })?;
        Ok(number)
    }

    pub fn bind(&mut self, worker: u32, socket: u64, end: SocketAddrV4) -> Result<u16, Errno> {
        let (addr, port) = numbers(end);
        let mut bound = 0;
        // SAFETY: see above.
        done(unsafe { inet_list_bind(self, worker, socket, addr, port, &mut bound) })?;
        Ok(bound)
    }

    pub fn listen(&mut self, worker: u32, socket: u64) -> Result<u16, Errno> {
        let mut bound = 0;
        // SAFETY: see above.
        done(unsafe { inet_list_listen(self, worker, socket, &mut bound) })?;
        Ok(bound)
    }

    pub fn connect(
        &mut self,
        worker: u32,
        socket: u64,
        from: Option<Ipv4Addr>,
        to: SocketAddrV4,
    ) -> Result<SocketAddrV4, Errno> {
        let from = from.map_or(0, Ipv4Addr::to_bits);
        let (to_addr, to_port) = numbers(to);
        let (mut addr, mut port) = (0, 0);
        // SAFETY: see above.
        done(unsafe { inet_list_connect(self, worker, socket, from, to_addr, to_port, &mut addr, &mut port) })?;
        Ok(SocketAddrV4::new(Ipv4Addr::from_bits(addr), port))
    }

    pub fn accept(&mut self, worker: u32, listener: u64, from: SocketAddrV4, at: SocketAddrV4) -> Result<u64, Errno> {
        let (from_addr, from_port) = numbers(from);
        let (at_addr, at_port) = numbers(at);
        let mut number = 0;
        // SAFETY: see above.
        done(unsafe { inet_list_accept(self, worker, listener, from_addr, from_port, at_addr, at_port, &mut number) })?;
        Ok(number)
    }

    pub fn syn(&mut self, worker: u32, listener: u64, from: SocketAddrV4, at: SocketAddrV4) -> Result<u64, Errno> {
        let (from_addr, from_port) = numbers(from);
        let (at_addr, at_port) = numbers(at);
        let mut number = 0;
        // SAFETY: see above.
        done(unsafe { inet_list_syn(self, worker, listener, from_addr, from_port, at_addr, at_port, &mut number) })?;
        Ok(number)
    }

    pub fn ack(&mut self, worker: u32, request: u64) -> Result<u64, Errno> {
        let mut number = 0;
        // SAFETY: see above.
        done(unsafe { inet_list_ack(self, worker, request, &mut number) })?;
        Ok(number)
    }

    pub fn close(&mut self, worker: u32, socket: u64) -> Result<bool, Errno> {
        let mut waits = false;
        // SAFETY: see above.
        done(unsafe { inet_list_close(self, worker, socket, &mut waits) })?;
        Ok(waits)
    }

    pub fn drop_socket(&mut self, worker: u32, socket: u64) -> Result<(), Errno> {
        // SAFETY: see above.
        done(unsafe { inet_list_drop(self, worker, socket) })
    }

    pub fn at(&mut self, worker: u32, moment: u32) -> Result<(), Errno> {
        // SAFETY: see above.
        done(unsafe { inet_list_at(self, worker, moment) })
    }

    pub fn reap(&mut self, worker: u32) -> Result<u64, Errno> {
        let mut count = 0;
        // SAFETY: see above.
        done(unsafe { inet_list_reap(self, worker, &mut count) })?;
        Ok(count)
    }

    pub fn look(&mut self, from: SocketAddrV4, to: SocketAddrV4, dev: u16, net: u8) -> Result<Option<Sight>, Errno> {
        let (src, sport) = numbers(from);
        let (dst, dport) = numbers(to);
        let mut sight = RawSight::default();
        // SAFETY: see above.
        done(unsafe { inet_list_look(self, src, sport, dst, dport, dev, net, &mut sight) })?;
        Ok(sight_of(sight.kind, sight.worker, sight.socket))
    }

    fn items_into(&mut self, items: &mut [RawItem]) -> Result<usize, Errno> {
        let mut count = 0;
        // SAFETY: see above; the pointer and the room are of one slice.
        done(unsafe { inet_list_items(self, items.as_mut_ptr(), items.len(), &mut count) })?;
        Ok(count as usize)
    }

    pub fn items(&mut self) -> Result<Vec<Item>, Errno> {
        let count = self.items_into(&mut [])?;
        let mut items = vec![RawItem::default(); count];
        self.items_into(&mut items)?;
        Ok(items.iter().filter_map(item_of).collect())
    }
}

/// The address and the port, as the library has them.
fn numbers(end: SocketAddrV4) -> (u32, u16) {
    (end.ip().to_bits(), end.port())
}

fn sight_of(kind: u32, worker: u32, number: u64) -> Option<Sight> {
    let socket = Socket { worker, number };
    match kind {
        1 => Some(Sight::Connected(socket)),
        2 => Some(Sight::TimeWait(socket)),
        3 => Some(Sight::Listener(socket)),
        4 => Some(Sight::Request(socket)),
        _ => None,
    }
}

fn found_of(raw: &RawSight) -> Option<Found> {
    let sight = sight_of(raw.kind, raw.worker, raw.socket)?;
    Some(Found { sight, mark: raw.mark })
}

fn told_of(raw: &RawSight) -> Result<Option<Found>, Errno> {
    if raw.kind == 7 { Err(Errno::EAGAIN) } else { Ok(found_of(raw)) }
}

fn raw_packet(packet: &Packet) -> RawPacket {
    let (src, sport) = numbers(packet.from);
    let (dst, dport) = numbers(packet.to);
    RawPacket { src, dst, sport, dport, dev: packet.dev, net: packet.net }
}

fn open_of(raw: &RawItem) -> Open {
    Open {
        state: match raw.kind {
            1 => State::Connected,
            3 => State::Listening,
            4 => State::Request,
            5 => State::Bound,
            _ => State::Unbound,
        },
        own: SocketAddrV4::new(Ipv4Addr::from_bits(raw.addr), raw.port),
        peer: SocketAddrV4::new(Ipv4Addr::from_bits(raw.peer_addr), raw.peer_port),
        dev: raw.dev,
        net: raw.net,
    }
}

fn item_of(raw: &RawItem) -> Option<Item> {
    Some(Item {
        sight: sight_of(raw.kind, raw.worker, raw.socket)?,
        own: SocketAddrV4::new(Ipv4Addr::from_bits(raw.addr), raw.port),
        peer: SocketAddrV4::new(Ipv4Addr::from_bits(raw.peer_addr), raw.peer_port),
        dev: raw.dev,
        net: raw.net,
    })
}
