//! Each option, size and field of the crate, used so that another one in its place would be told from it. It prints
//! what ../../c/options.c prints of the same.

use inet_tables::{
    Errno, Found, Item, Limits, List, Looker, Options, Packet, Reserved, Sight, Sizes, Socket, Tables, Worker,
};
use std::net::{Ipv4Addr, SocketAddrV4};

const LIMITS: Limits = Limits { tries: 10, most_waits: 0, full_for: 0 };

const HOST: Ipv4Addr = Ipv4Addr::new(10, 0, 0, 1);
const PEER: Ipv4Addr = Ipv4Addr::new(10, 0, 0, 2);

fn end(addr: Ipv4Addr, port: u16) -> SocketAddrV4 {
    SocketAddrV4::new(addr, port)
}

fn name<T>(answer: Result<T, Errno>) -> &'static str {
    match answer {
        Ok(_) => "done",
        Err(errno) => errno.name().unwrap_or("another errno"),
    }
}

/// The kind's number in ../../inet_tables.h, and the socket.
fn kind(sight: Sight) -> (u32, Socket) {
    match sight {
        Sight::Connected(s) => (1, s),
        Sight::TimeWait(s) => (2, s),
        Sight::Listener(s) => (3, s),
        Sight::Request(s) => (4, s),
    }
}

/// Whether there can be a list of these sizes.
fn try_sizes(what: &str, sizes: Sizes) {
    println!("{what}: {}", name(List::new(&sizes)));
}

fn ranges() {
    let sizes = Sizes::default();
    try_sizes("2^24 slots", Sizes { slots: 1 << 24, ..sizes });
    try_sizes("256 bind buckets", Sizes { bind: 256, ..sizes });
    try_sizes("512 bind buckets", Sizes { bind: 512, ..sizes });
    try_sizes("2^24 established buckets", Sizes { hash: 1 << 24, ..sizes });
    try_sizes("2^20 listening buckets", Sizes { listen: 1 << 20, ..sizes });
    try_sizes("2^21 listening buckets", Sizes { listen: 1 << 21, ..sizes });
    try_sizes("ports from 60998 to 60999", Sizes { low: 60998, ..sizes });
    try_sizes("ports from 60998 to 60997", Sizes { low: 60998, high: 60997, ..sizes });
    for count in [64, 65] {
        let may = Reserved::of(&vec![1; count]).is_some();
        println!("{count} reserved ports: there may {}", if may { "be" } else { "not be" });
    }
}

/// The port of a new socket that is bound to the host.
fn searched(list: &mut List) -> Result<u16, Errno> {
    let socket = list.socket(1, Options::default())?;
    list.bind(socket, end(HOST, 0))
}

fn listener(list: &mut List, options: Options, port: u16) -> Result<Socket, Errno> {
    let socket = list.socket(1, options)?;
    list.bind(socket, end(HOST, port))?;
    list.listen(socket)?;
    Ok(socket)
}

/// Two ports of a search, and a seed that decides which is taken first.
fn searches() -> Result<(), Errno> {
    let mut first = Vec::new();
    for seed in 0..8 {
        let sizes = Sizes { seed, ..Sizes::default() };
        first.push(searched(&mut List::new(&sizes)?)?);
        if searched(&mut List::new(&sizes)?)? != first[seed as usize] {
            println!("seed {seed}: another port the second time");
        }
    }
    let differ = first.iter().any(|port| *port != first[0]);
    println!("another seed: {}", if differ { "other ports" } else { "the same port" });
    let mut list = List::new(&Sizes { low: 40000, high: 40001, seed: 7, ..Sizes::default() })?;
    let (one, two) = (searched(&mut list)?, searched(&mut list)?);
    println!("two ports of a search: {} and {}", one.min(two), one.max(two));
    println!("a third: {}", name(searched(&mut list)));
    Ok(())
}

/// Searches begin at an offset, and pass a reserved port by.
fn begin_at(offset: u16, reserved: u16) -> Result<(), Errno> {
    let kept = Reserved::of(&[reserved]).expect("it is one port");
    let sizes = Sizes { low: 40000, high: 40005, offset: Some(offset), reserved: kept, ..Sizes::default() };
    let mut list = List::new(&sizes)?;
    let (one, two) = (searched(&mut list)?, searched(&mut list)?);
    println!("of 40000 to 40005 without {reserved}, from {offset} on: {one} and {two}");
    Ok(())
}

/// One slot is for the listener, and one for a connection.
fn slots() -> Result<(), Errno> {
    let mut list = List::new(&Sizes { slots: 2, ..Sizes::default() })?;
    let web = listener(&mut list, Options::default(), 80)?;
    list.accept(web, end(PEER, 1000), end(HOST, 80))?;
    let third = list.accept(web, end(PEER, 1001), end(HOST, 80));
    println!("a third hashed socket of two slots: {}", name(third));
    Ok(())
}

/// A four-tuple in TIME_WAIT is had again by tcp_tw_reuse alone.
fn reuse(twreuse: bool) -> Result<(), Errno> {
    let mut list = List::new(&Sizes { twreuse, ..Sizes::default() })?;
    let options = Options { reuseaddr: true, ..Options::default() };
    let (socket, again) = (list.socket(1, options)?, list.socket(1, options)?);
    list.bind(socket, end(HOST, 1000))?;
    list.connect(socket, None, end(PEER, 443))?;
    let waits = list.close(socket)?;
    list.at(1, 2)?;
    list.bind(again, end(HOST, 1000))?;
    println!(
        "twreuse {}: a TIME_WAIT {}, and its four-tuple again: {}",
        u8::from(twreuse),
        if waits { "stays" } else { "doesn't stay" },
        name(list.connect(again, None, end(PEER, 443)))
    );
    Ok(())
}

/// What a second socket at port 80 comes to, where both have these options and these users, and then both listen.
fn share_port(what: &str, options: Options, other_uid: u32) -> Result<(), Errno> {
    let mut list = List::new(&Sizes::default())?;
    let one = list.socket(1, options)?;
    let two = list.socket(1, Options { uid: other_uid, ..options })?;
    list.bind(one, end(Ipv4Addr::UNSPECIFIED, 80))?;
    let binds = name(list.bind(two, end(Ipv4Addr::UNSPECIFIED, 80)));
    let first = name(list.listen(one));
    println!("{what}: bind {binds}, listen {first} and {}", name(list.listen(two)));
    Ok(())
}

/// A bind of an address alone takes its port when it connects.
fn late_port() -> Result<(), Errno> {
    let mut list = List::new(&Sizes::default())?;
    let socket = list.socket(1, Options { bind_address_no_port: true, ..Options::default() })?;
    let port = list.bind(socket, end(HOST, 0))?;
    let own = list.connect(socket, None, end(PEER, 443))?;
    println!(
        "INET_BIND_ADDRESS_NO_PORT: port {port}, and of a connection from {:x} one of the range: {}",
        own.ip().to_bits(),
        u8::from((32768..=60999).contains(&own.port()))
    );
    Ok(())
}

fn see(list: &mut List, what: &str, socket: Socket, dev: u16, net: u8) -> Result<(), Errno> {
    let (kind, worker, same) = match list.look(end(PEER, 1000), end(HOST, 80), dev, net)?.map(kind) {
        Some((kind, found)) => (kind, found.worker, found == socket),
        None => (0, 0, false),
    };
    println!("a packet of {what}: kind {kind} of worker {worker}, the socket: {}", u8::from(same));
    Ok(())
}

fn devices_and_namespaces() -> Result<(), Errno> {
    let mut list = List::new(&Sizes::default())?;
    let on_three = listener(&mut list, Options { dev: 3, ..Options::default() }, 80)?;
    let elsewhere = listener(&mut list, Options { net: 15, ..Options::default() }, 80)?;
    see(&mut list, "device 3", on_three, 3, 0)?;
    see(&mut list, "device 4", on_three, 4, 0)?;
    see(&mut list, "namespace 15", elsewhere, 3, 15)?;
    see(&mut list, "namespace 3", elsewhere, 15, 3)?;
    let strange = list.socket(1, Options { net: 16, ..Options::default() });
    println!("a socket of namespace 16: {}", name(strange));
    println!("a packet of namespace 16: {}", name(list.look(end(PEER, 1), end(HOST, 1), 0, 16)));
    println!("the number of the next socket: {}", list.socket(1, Options::default())?.number);
    Ok(())
}

/// Of each call that takes ends, which is which; and all that a list says of its items.
fn ends() -> Result<(), Errno> {
    let mut list = List::new(&Sizes::default())?;
    let web = listener(&mut list, Options { net: 5, dev: 7, ..Options::default() }, 80)?;
    let out = list.socket(1, Options { net: 5, ..Options::default() })?;
    let incoming = list.accept(web, end(Ipv4Addr::new(10, 0, 0, 3), 1001), end(HOST, 80))?;
    let request = list.syn(web, end(Ipv4Addr::new(10, 0, 0, 4), 1002), end(HOST, 80))?;
    let own = list.connect(out, Some(Ipv4Addr::new(10, 0, 0, 5)), end(Ipv4Addr::new(10, 0, 0, 6), 443))?;
    let range = u8::from((32768..=60999).contains(&own.port()));
    println!("connected from {:x}, a port of the range: {range}", own.ip().to_bits());
    let waits = list.close(incoming)?;
    let items = list.items()?;
    println!("{} items, with room for two of them", items.len());
    let four = [web, incoming, request, out];
    for Item { sight, own: here, peer, dev, net } in items {
        let (kind, socket) = kind(sight);
        println!(
            "kind {kind}, worker {}, {:x}:{} to {:x}:{}, dev {dev}, net {net}, one of the four: {}",
            socket.worker,
            here.ip().to_bits(),
            if here.port() == own.port() { 0 } else { here.port() },
            peer.ip().to_bits(),
            peer.port(),
            four.iter().filter(|one| **one == socket).count()
        );
    }
    list.at(1, 60)?;
    let over = list.reap(1)?;
    println!("over after a minute: {over}, {}", if waits { "one waited" } else { "none waited" });
    Ok(())
}

/// Shared tables know what they handed out, and number their workers.
fn tags() -> Result<(), Errno> {
    let (mut one, mut two) = (Tables::new(&Sizes::default())?, Tables::new(&Sizes::default())?);
    let (first, second) = (one.worker(LIMITS)?, one.worker(LIMITS)?);
    println!("workers {} and {}", first.number(), second.number());
    let Err((errno, looker)) = two.take_looker_back(one.looker()?) else {
        println!("a looker to the other tables: done");
        return Ok(());
    };
    println!("a looker to the other tables: {}", name::<()>(Err(errno)));
    let own = one.take_looker_back(looker).map_err(|(errno, _)| errno);
    println!("a looker to its own: {}", name(own));
    Ok(())
}

fn worker_listener(worker: &mut Worker, options: Options) -> Result<Socket, Errno> {
    let socket = worker.socket(options, 0)?;
    worker.bind(socket, end(HOST, 80))?;
    worker.listen(socket)?;
    Ok(socket)
}

/// A worker's limits: of two closed connections one waits, and behind a refusal two calls don't look for a slot.
fn limits() -> Result<(), Errno> {
    let mut tables = Tables::new(&Sizes { slots: 4, ..Sizes::default() })?;
    let mut worker = tables.worker(Limits { tries: 5, most_waits: 1, full_for: 2 })?;
    let web = worker_listener(&mut worker, Options::default())?;
    let one = worker.accept(web, end(PEER, 1000), end(HOST, 80), 0)?;
    let two = worker.accept(web, end(PEER, 1001), end(HOST, 80), 0)?;
    let (first, second) = (worker.close(one)?, worker.close(two)?);
    println!("one TIME_WAIT at most, two closed: {} and {}", u8::from(first), u8::from(second));
    print!("four slots, and two calls for which they stay full:");
    for port in 1002..1008 {
        print!(" {}", name(worker.accept(web, end(PEER, port), end(HOST, 80), 0)));
    }
    println!();
    Ok(())
}

/// By a lookup, and by one of a batch.
fn see_shared(looker: &mut Looker, dev: u16, net: u8) -> Result<(), Errno> {
    let packet = Packet { from: end(PEER, 1000), to: end(HOST, 80), dev, net };
    let number = |found: Option<Found>| found.map_or(0, |found| kind(found.sight).0);
    let one = number(looker.look(packet.from, packet.to, dev, net)?);
    let many = number(looker.look_all(&[packet], 0)?.remove(0)?);
    println!("a packet of device {dev} in namespace {net}: kind {one}, and of a batch {many}");
    Ok(())
}

/// A worker's socket has a device and a namespace, and a looker's packets have.
fn shared_devices() -> Result<(), Errno> {
    let mut tables = Tables::new(&Sizes::default())?;
    let (mut worker, mut looker) = (tables.worker(Limits::default())?, tables.looker()?);
    let socket = worker_listener(&mut worker, Options { net: 15, dev: 3, ..Options::default() })?;
    let open = worker.ask(socket)?;
    println!("a worker's socket of device {} in namespace {}", open.dev, open.net);
    see_shared(&mut looker, 3, 15)?;
    see_shared(&mut looker, 4, 15)?;
    see_shared(&mut looker, 3, 14)
}

fn main() -> Result<(), Errno> {
    let reuseport = Options { reuseport: true, uid: 7, ..Options::default() };
    ranges();
    searches()?;
    begin_at(3, 40005)?;
    begin_at(1, 40001)?;
    slots()?;
    reuse(false)?;
    reuse(true)?;
    share_port("no flag", Options::default(), 0)?;
    share_port("INET_REUSEADDR", Options { reuseaddr: true, ..Options::default() }, 0)?;
    share_port("INET_REUSEPORT", reuseport, 7)?;
    share_port("INET_REUSEPORT of two users", reuseport, 8)?;
    late_port()?;
    devices_and_namespaces()?;
    ends()?;
    tags()?;
    limits()?;
    shared_devices()
}
