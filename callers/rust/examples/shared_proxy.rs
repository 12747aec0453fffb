//! The toy proxy of ../src/main.rs over tables that threads share: two threads accept connections and close them,
//! each by a worker of its own, and two look packets up meanwhile, each by a looker of its own. No lock is round any
//! call. What it prints is the same whichever thread comes first, and what ../../c/shared_proxy.c prints of the same.

use inet_tables::{Errno, Limits, Looker, Options, Packet, Sight, Sizes, Socket, Tables, Worker};
use std::net::{Ipv4Addr, SocketAddrV4};
use std::thread;

const CONNECTIONS: u16 = 500;

/// A call tries so often again for what another worker has.
const LIMITS: Limits = Limits { tries: 1000, most_waits: 0, full_for: 0 };

fn at(worker: u32) -> SocketAddrV4 {
    SocketAddrV4::new(Ipv4Addr::new(10, 0, 0, 1), 8000 + worker as u16)
}

fn client(worker: u32, port: u16) -> SocketAddrV4 {
    SocketAddrV4::new(Ipv4Addr::new(192, 0, 2, worker as u8), port)
}

/// Makes a call again as long as others are in its way; they go first.
fn patiently<T>(mut call: impl FnMut() -> Result<T, Errno>) -> Result<T, Errno> {
    loop {
        match call() {
            Err(Errno::EAGAIN) => thread::yield_now(),
            answer => return answer,
        }
    }
}

fn open_listener(worker: &mut Worker) -> Result<Socket, Errno> {
    let socket = worker.socket(Options { reuseaddr: true, ..Options::default() }, 0)?;
    worker.bind(socket, at(worker.number()))?;
    worker.listen(socket)?;
    Ok(socket)
}

/// How many connections were closed, and how many of them left a TIME_WAIT.
fn accept_all(worker: &mut Worker, listener: Socket) -> Result<(u32, u32), Errno> {
    let (mut closed, mut waiting) = (0, 0);
    for i in 0..CONNECTIONS {
        let from = client(listener.worker, 1024 + i);
        let socket = patiently(|| worker.accept(listener, from, at(listener.worker), 0))?;
        waiting += u32::from(patiently(|| worker.close(socket))?);
        closed += 1;
    }
    Ok((closed, waiting))
}

fn look(looker: &mut Looker, worker: u32, port: u16) -> Result<Option<Sight>, Errno> {
    let found = patiently(|| looker.look(client(worker, port), at(worker), 0, 0))?;
    Ok(found.map(|found| found.sight))
}

/// How many packets found a socket of that worker: the connection, its TIME_WAIT or the listener.
fn look_all(looker: &mut Looker, worker: u32) -> Result<u32, Errno> {
    let mut found = 0;
    for i in 0..CONNECTIONS {
        let sight = look(looker, worker, 1024 + i)?;
        found += u32::from(sight.is_some_and(|sight| sight.socket().worker == worker));
    }
    Ok(found)
}

fn name(errno: Errno) -> &'static str {
    errno.name().unwrap_or("another errno")
}

fn refusals(one: Socket, two: &mut Worker) -> Result<(), Errno> {
    let socket = two.socket(Options::default(), 0)?;
    let taken = two.bind(socket, SocketAddrV4::new(Ipv4Addr::UNSPECIFIED, at(one.worker).port()));
    println!("a port that another worker has: {}", taken.map_or_else(name, |_| "bound"));
    two.drop_socket(socket)?;
    println!("another worker's socket: {}", two.close(one).map_or_else(name, |_| "closed"));
    Ok(())
}

/// A handshake in two steps: its request takes the packets while it lasts, and then the connection.
fn shake_hands(worker: &mut Worker, listener: Socket, looker: &mut Looker) -> Result<(), Errno> {
    let number = worker.number();
    let request = worker.syn(listener, client(number, 1023), at(number), 0)?;
    let meanwhile = look(looker, number, 1023)? == Some(Sight::Request(request));
    println!("a packet of a handshake: {}", if meanwhile { "the request" } else { "another socket" });
    let socket = worker.ack(request, 0)?;
    let packet = Packet { from: client(number, 1023), to: at(number), dev: 0, net: 0 };
    let clock = worker.now()?;
    let found = patiently(|| looker.look_after(&packet, clock))?;
    let after = found.is_some_and(|found| found.sight == Sight::Connected(socket));
    println!("a packet after it: {}", if after { "the connection" } else { "another socket" });
    worker.drop_socket(socket)
}

/// The next holder of a worker that was given back closes what its last holder left open, but the listener.
fn hand_over(tables: &mut Tables, mut worker: Worker, listener: Socket) -> Result<Worker, Errno> {
    let number = worker.number();
    worker.accept(listener, client(number, 1021), at(number), 0)?;
    worker.accept(listener, client(number, 1022), at(number), 0)?;
    tables.take_back(worker).map_err(|(errno, _)| errno)?;
    let mut worker = tables.worker(LIMITS)?;
    let (mut dropped, mut last) = (0, listener.number);
    while let Some(socket) = worker.next_open(last)? {
        worker.drop_socket(socket)?;
        dropped += 1;
        last = socket.number;
    }
    println!("worker {}, handed over: {dropped} connections dropped", worker.number());
    Ok(worker)
}

/// All TIME_WAITs are over, and go by sixty-four a call, so that none takes long.
fn finish(mut worker: Worker) -> Result<(), Errno> {
    worker.at(60)?;
    let (mut all, mut more) = (0, true);
    while more {
        let (count, left) = worker.reap_most(64)?;
        all += count;
        more = left;
    }
    println!("worker {}: {all} TIME_WAITs are over after a minute", worker.number());
    Ok(())
}

fn main() -> Result<(), Errno> {
    let mut tables = Tables::new(&Sizes { slots: 4096, seed: 7, ..Sizes::default() })?;
    let mut workers = [tables.worker(LIMITS)?, tables.worker(LIMITS)?];
    let mut lookers = [tables.looker()?, tables.looker()?];
    let [one, two] = &mut workers;
    let listeners = [open_listener(one)?, open_listener(two)?];
    let (accepted, looked) = thread::scope(|scope| {
        let accepters = workers.each_mut().map(|worker| {
            let listener = listeners[worker.number() as usize - 1];
            scope.spawn(move || accept_all(worker, listener))
        });
        let [first, second] = &mut lookers;
        let lookers = [(first, 1), (second, 2)].map(|(looker, worker)| scope.spawn(move || look_all(looker, worker)));
        (
            accepters.map(|thread| thread.join().expect("no thread panics")),
            lookers.map(|thread| thread.join().expect("no thread panics")),
        )
    });
    for (worker, (accepted, found)) in workers.iter().zip(accepted.into_iter().zip(looked)) {
        let (number, (closed, waiting), found) = (worker.number(), accepted?, found?);
        println!(
            "worker {number}: {closed} connections closed, {waiting} in TIME_WAIT; \
             {found} of {CONNECTIONS} packets found a socket of its own"
        );
    }
    let ([mut one, mut two], [mut looker, mut last]) = (workers, lookers);
    refusals(listeners[0], &mut two)?;
    shake_hands(&mut one, listeners[0], &mut looker)?;
    let one = hand_over(&mut tables, one, listeners[0])?;
    drop(tables);
    finish(one)?;
    finish(two)?;
    let gone = look(&mut last, 2, 1024)? == Some(Sight::Listener(listeners[1]));
    println!("a packet when the workers are gone: {}", if gone { "the listener" } else { "another socket" });
    Ok(())
}
