//! The socket tables of a toy proxy: two threads accept connections and close them, and two look packets up meanwhile.
//! What it prints is the same whichever thread comes first, and what ../c/proxy.c prints of the same.

use inet_tables::{Errno, List, Options, Sight, Sizes, Socket};
use std::net::{Ipv4Addr, SocketAddrV4};
use std::sync::{Mutex, MutexGuard};
use std::thread;

const CONNECTIONS: u16 = 500;

fn at(worker: u32) -> SocketAddrV4 {
    SocketAddrV4::new(Ipv4Addr::new(10, 0, 0, 1), 8000 + worker as u16)
}

fn client(worker: u32, number: u16) -> SocketAddrV4 {
    SocketAddrV4::new(Ipv4Addr::new(192, 0, 2, worker as u8), 1024 + number)
}

fn turn(list: &Mutex<List>) -> MutexGuard<'_, List> {
    list.lock().expect("no thread panics")
}

fn open_listener(list: &Mutex<List>, worker: u32) -> Result<Socket, Errno> {
    let mut list = turn(list);
    let socket = list.socket(worker, Options { reuseaddr: true, ..Options::default() })?;
    list.bind(socket, at(worker))?;
    list.listen(socket)?;
    Ok(socket)
}

/// How many connections were closed, and how many of them left a TIME_WAIT.
fn accept_all(list: &Mutex<List>, listener: Socket) -> Result<(u32, u32), Errno> {
    let (mut closed, mut waiting) = (0, 0);
    for number in 0..CONNECTIONS {
        let socket = turn(list).accept(listener, client(listener.worker, number), at(listener.worker))?;
        waiting += u32::from(turn(list).close(socket)?);
        closed += 1;
    }
    Ok((closed, waiting))
}

/// How many packets found a socket of that worker: the connection, its TIME_WAIT or the listener.
fn look_all(list: &Mutex<List>, worker: u32) -> Result<u32, Errno> {
    let mut found = 0;
    for number in 0..CONNECTIONS {
        let sight = turn(list).look(client(worker, number), at(worker), 0, 0)?;
        found += u32::from(sight.is_some_and(|sight| sight.socket().worker == worker));
    }
    Ok(found)
}

fn name(errno: Errno) -> &'static str {
    errno.name().unwrap_or("another errno")
}

fn connect_out(list: &mut List) -> Result<(), Errno> {
    let socket = list.socket(3, Options::default())?;
    let to = SocketAddrV4::new(Ipv4Addr::new(192, 0, 2, 9), 443);
    let end = list.connect(socket, Some(*at(3).ip()), to)?;
    let port = if (32768..=60999).contains(&end.port()) { "a port of the range" } else { "another port" };
    println!("a connection out, from {}: {port}", end.ip());
    let again = list.connect(socket, Some(*at(3).ip()), to);
    println!("the same again: {}", again.map_or_else(name, |_| "connected"));
    list.drop_socket(socket)
}

/// A handshake in two steps: its request takes the packets while it lasts, and then the connection.
fn shake_hands(list: &mut List) -> Result<(), Errno> {
    let listener = list.socket(3, Options::default())?;
    list.bind(listener, at(3))?;
    list.listen(listener)?;
    let request = list.syn(listener, client(3, 0), at(3))?;
    let meanwhile = list.look(client(3, 0), at(3), 0, 0)? == Some(Sight::Request(request));
    println!("a packet of a handshake: {}", if meanwhile { "the request" } else { "another socket" });
    let socket = list.ack(request)?;
    let after = list.look(client(3, 0), at(3), 0, 0)? == Some(Sight::Connected(socket));
    println!("a packet after it: {}", if after { "the connection" } else { "another socket" });
    println!("the request: {}", list.ack(request).map_or_else(name, |_| "there"));
    list.drop_socket(socket)?;
    list.drop_socket(listener)
}

/// What is left are the two listeners.
fn list_left(list: &mut List) -> Result<(), Errno> {
    let items = list.items()?;
    println!("{} sockets are left", items.len());
    for item in items {
        let kind = if matches!(item.sight, Sight::Listener(_)) { "listener" } else { "connection" };
        println!("worker {}: a {kind} at {}", item.sight.socket().worker, item.own);
    }
    Ok(())
}

fn main() -> Result<(), Errno> {
    let list = Mutex::new(List::new(&Sizes { slots: 4096, seed: 7, ..Sizes::default() })?);
    let listeners = [open_listener(&list, 1)?, open_listener(&list, 2)?];
    let (accepted, looked) = thread::scope(|scope| {
        let list = &list;
        let accepters = listeners.map(|listener| scope.spawn(move || accept_all(list, listener)));
        let lookers = listeners.map(|listener| scope.spawn(move || look_all(list, listener.worker)));
        (
            accepters.map(|thread| thread.join().expect("no thread panics")),
            lookers.map(|thread| thread.join().expect("no thread panics")),
        )
    });
    for (listener, (accepted, found)) in listeners.iter().zip(accepted.into_iter().zip(looked)) {
        let (worker, (closed, waiting), found) = (listener.worker, accepted?, found?);
        println!(
            "worker {worker}: {closed} connections closed, {waiting} in TIME_WAIT; \
             {found} of {CONNECTIONS} packets found a socket of its own"
        );
    }
    let mut list = list.into_inner().expect("no thread panics");
    let socket = list.socket(3, Options::default())?;
    let taken = list.bind(socket, SocketAddrV4::new(Ipv4Addr::UNSPECIFIED, 8001));
    println!("a port that is taken: {}", taken.map_or_else(name, |_| "bound"));
    let strange = list.close(Socket { worker: 2, ..socket });
    println!("another worker's socket: {}", strange.map_or_else(name, |_| "closed"));
    println!("worker 65: {}", list.at(65, 1).map_or_else(name, |()| "there"));
    list.drop_socket(socket)?;
    connect_out(&mut list)?;
    shake_hands(&mut list)?;
    for worker in [1, 2] {
        list.at(worker, 60)?;
        println!("worker {worker}: {} TIME_WAITs are over after a minute", list.reap(worker)?);
    }
    list_left(&mut list)
}
