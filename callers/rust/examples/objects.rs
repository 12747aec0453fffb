//! Objects by marks: two workers accept connections and drop them, each with an object of its own in an array, and two
//! lookers find a packet's connection and read its object meanwhile, by the mark that the lookup answers. An object is
//! freed while lookups go on, once none can lead to it any more. It does what ../../c/objects.c does, and prints the
//! same.

use inet_tables::{Errno, Limits, Looker, Options, Packet, Sight, Sizes, Socket, Tables, Worker};
use std::net::{Ipv4Addr, SocketAddrV4};
use std::ptr::null_mut;
use std::sync::atomic::{AtomicBool, AtomicPtr, AtomicU64, Ordering::SeqCst};
use std::thread;

const CONNECTIONS: usize = 20000;
const OPEN: usize = 100;
const PLACES: usize = 4 * OPEN;
const PROXY: Ipv4Addr = Ipv4Addr::new(10, 0, 0, 1);

/// What a caller keeps of a connection. It stands at its place before lookups can find the connection.
struct Object {
    worker: u32,
    from: SocketAddrV4,
}

/// What threads share: the objects, by their places; how many connections each worker made, and the clock as it left
/// it; and from which clock on each looker looks, which has no object from earlier lookups.
struct Shared {
    objects: Vec<AtomicPtr<Object>>,
    made: [AtomicU64; 2],
    now: [AtomicU64; 2],
    since: [AtomicU64; 2],
    over: AtomicBool,
}

impl Shared {
    fn new() -> Self {
        Shared {
            objects: (0..2 * PLACES).map(|_| AtomicPtr::new(null_mut())).collect(),
            made: [AtomicU64::new(0), AtomicU64::new(0)],
            now: [AtomicU64::new(0), AtomicU64::new(0)],
            since: [AtomicU64::new(0), AtomicU64::new(0)],
            over: AtomicBool::new(false),
        }
    }

    /// Puts an object to a place that has none.
    fn put(&self, place: usize, object: Object) {
        self.objects[place].store(Box::into_raw(Box::new(object)), SeqCst);
    }

    /// Frees the object of a place whose connection was gone at that clock, once no lookup leads there any more.
    fn clear(&self, place: usize, gone: u64) {
        while self.since.iter().any(|since| since.load(SeqCst) < gone) {
            thread::yield_now();
        }
        let object = self.objects[place].swap(null_mut(), SeqCst);
        // SAFETY: put stored it, this swap alone took it, and no looker has it: each has come from its earlier lookups,
        // and begins none that finds the connection.
        drop(unsafe { Box::from_raw(object) });
    }

    /// The mark that a lookup answered leads to the object of that worker's connection.
    fn leads(&self, mark: u32, worker: u32, from: SocketAddrV4) -> bool {
        let Some(place) = (mark as usize).checked_sub(1) else { return false };
        let object = self.objects[place].load(SeqCst);
        // SAFETY: it is null, or stands until this looker says that it looks from a later clock on.
        unsafe { object.as_ref() }.is_some_and(|object| object.worker == worker && object.from == from)
    }

    /// Each change of a worker's calls that had ended by then is below this number of the clock.
    fn latest(&self) -> u64 {
        self.now.iter().map(|now| now.load(SeqCst)).max().unwrap_or(0)
    }
}

/// Others were in the way: they go first, and the call is made again.
fn patiently<T>(mut call: impl FnMut() -> Result<T, Errno>) -> Result<T, Errno> {
    loop {
        match call() {
            Err(Errno::EAGAIN) => thread::yield_now(),
            done => return done,
        }
    }
}

fn at(worker: u32) -> SocketAddrV4 {
    SocketAddrV4::new(PROXY, 8000 + worker as u16)
}

fn client(worker: u32, connection: usize) -> SocketAddrV4 {
    SocketAddrV4::new(Ipv4Addr::new(192, 0, 2, worker as u8), 1024 + connection as u16)
}

fn open_listener(worker: &mut Worker) -> Result<Socket, Errno> {
    let socket = worker.socket(Options::default(), 0)?;
    worker.bind(socket, at(worker.number()))?;
    worker.listen(socket)?;
    Ok(socket)
}

/// A connection's place is its worker's, and its mark is 1 more: 0 is the listener's.
fn place_of(worker: &Worker, connection: usize) -> usize {
    (worker.number() as usize - 1) * PLACES + connection % PLACES
}

fn accept(shared: &Shared, worker: &mut Worker, listener: Socket, connection: usize) -> Result<Socket, Errno> {
    let (number, place) = (worker.number(), place_of(worker, connection));
    let from = client(number, connection);
    shared.put(place, Object { worker: number, from });
    let socket = patiently(|| worker.accept(listener, from, at(number), place as u32 + 1))?;
    shared.made[number as usize - 1].store(connection as u64 + 1, SeqCst);
    Ok(socket)
}

/// The connection is gone, and the clock says from when on.
fn leave(shared: &Shared, worker: &mut Worker, socket: Socket) -> Result<u64, Errno> {
    patiently(|| worker.drop_socket(socket))?;
    let clock = worker.now()?;
    shared.now[worker.number() as usize - 1].store(clock, SeqCst);
    Ok(clock)
}

fn work(shared: &Shared, worker: &mut Worker, listener: Socket) -> Result<(), Errno> {
    let (mut sockets, mut gone) = (Vec::new(), Vec::new());
    for i in 0..CONNECTIONS {
        if i >= OPEN {
            gone.push(leave(shared, worker, sockets[i - OPEN])?);
        }
        if i >= PLACES {
            shared.clear(place_of(worker, i), gone[i - PLACES]);
        }
        sockets.push(accept(shared, worker, listener, i)?);
    }
    for &socket in &sockets[CONNECTIONS - OPEN..] {
        gone.push(leave(shared, worker, socket)?);
    }
    for (i, &clock) in gone.iter().enumerate().skip(CONNECTIONS - PLACES) {
        shared.clear(place_of(worker, i), clock);
    }
    Ok(())
}

/// Packets of the workers' last connections: how many led to an object, and how many to none or to another's.
fn watch(shared: &Shared, looker: &mut Looker, number: usize) -> Result<(u64, u64), Errno> {
    let (mut led, mut strange) = (0, 0);
    for i in 0.. {
        if shared.over.load(SeqCst) {
            break;
        }
        let (worker, back) = (i % 2, i / 2 % (2 * OPEN));
        let made = shared.made[worker].load(SeqCst) as usize;
        let worker = worker as u32 + 1;
        let from = client(worker, made.saturating_sub(1 + back));
        let packet = Packet { from, to: at(worker), dev: 0, net: 0 };
        let since = shared.latest();
        shared.since[number].store(since, SeqCst);
        let found = patiently(|| looker.look_after(&packet, since))?;
        match found.map(|found| (found.sight, found.mark)) {
            Some((Sight::Connected(_), mark)) => {
                led += 1;
                strange += u64::from(!shared.leads(mark, worker, from));
            }
            Some((Sight::Listener(_), 0)) => {}
            _ => strange += 1,
        }
    }
    shared.since[number].store(u64::MAX, SeqCst);
    Ok((led, strange))
}

/// How many lookups led to an object, and how many to none or to another's, while both workers work.
fn run(shared: &Shared, workers: &mut [Worker], lookers: &mut [Looker]) -> Result<(u64, u64), Errno> {
    let listeners = workers.iter_mut().map(open_listener).collect::<Result<Vec<_>, _>>()?;
    thread::scope(|scope| {
        let watching: Vec<_> = (0..)
            .zip(lookers)
            .map(|(number, looker)| scope.spawn(move || watch(shared, looker, number)))
            .collect();
        let working: Vec<_> = workers
            .iter_mut()
            .zip(listeners)
            .map(|(worker, listener)| scope.spawn(move || work(shared, worker, listener)))
            .collect();
        let worked = working.into_iter().try_for_each(|thread| thread.join().expect("no thread panics"));
        shared.over.store(true, SeqCst);
        let mut all = (0, 0);
        for thread in watching {
            let (led, strange) = thread.join().expect("no thread panics")?;
            all = (all.0 + led, all.1 + strange);
        }
        worked.map(|()| all)
    })
}

fn main() -> Result<(), Errno> {
    let mut tables = Tables::new(&Sizes::default())?;
    let limits = Limits { tries: 1000, ..Limits::default() };
    let mut workers = [tables.worker(limits)?, tables.worker(limits)?];
    let mut lookers = [tables.looker()?, tables.looker()?];
    let shared = Shared::new();
    let (led, strange) = run(&shared, &mut workers, &mut lookers)?;
    let left = shared.objects.iter().filter(|object| !object.load(SeqCst).is_null()).count();
    println!("connections, each with an object: {}", 2 * CONNECTIONS);
    println!("lookups that led to an object: {}", if led > 0 { "some" } else { "none" });
    println!("to none, or to that of another connection: {strange}");
    println!("objects that weren't freed: {left}");
    Ok(())
}
