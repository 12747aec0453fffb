//! Sockets, the rules of ports, and lookups (docs/RULES.md).

use crate::capture::{Item, Reader};
use crate::parse::{Command, End, FastMap, Header, Script, Section};
use crate::pcg::Pcg;
use std::collections::hash_map::Entry;

#[derive(Clone, Copy, PartialEq)]
enum State {
    Unbound,
    Bound,
    Listening,
    Full,
    TimeWait,
}

#[derive(Clone, Copy)]
struct Sock {
    section: u32,
    label: u32,
    addr: u32,
    remote: u32,
    uid: u32,
    /// Moment of the close, for TimeWait.
    stamp: u32,
    /// Place in the owner list of its port.
    place: u32,
    port: u16,
    rport: u16,
    dev: u16,
    reuseaddr: bool,
    reuseport: bool,
    by_connect: bool,
    state: State,
}

impl Sock {
    fn overlap(&self, b: &Sock) -> bool {
        (self.dev == b.dev || self.dev == 0 || b.dev == 0)
            && (self.addr == b.addr || self.addr == 0 || b.addr == 0)
    }

    fn bind_conflict(&self, b: &Sock) -> bool {
        self.overlap(b)
            && !(self.reuseaddr && b.reuseaddr && b.state != State::Listening)
            && !(self.reuseport && b.reuseport && (self.uid == b.uid || b.state == State::TimeWait))
    }

    fn tuple(&self) -> Tuple {
        tuple(End { addr: self.addr, port: self.port }, End { addr: self.remote, port: self.rport })
    }
}

#[derive(Default)]
struct Port {
    owners: Vec<u32>,
    /// How many of them weren't chosen by `connect`.
    chosen: u32,
    /// How many of them lack reuseaddr or listen (Linux's `fastreuse`, counted).
    strict: u32,
}

type Tuple = (u64, u32);

fn tuple(local: End, remote: End) -> Tuple {
    ((local.addr as u64) << 32 | remote.addr as u64, (local.port as u32) << 16 | remote.port as u32)
}

type Place = (u32, u32);

fn listen_key(addr: u32, port: u16, dev: u16) -> Place {
    (addr, (port as u32) << 16 | dev as u32)
}

fn jhash_3words(a: u32, b: u32, c: u32, seed: u32) -> u32 {
    let start = seed.wrapping_add(0xdead_beef + 12);
    let (mut a, mut b, mut c) =
        (a.wrapping_add(start), b.wrapping_add(start), c.wrapping_add(start));
    c ^= b;
    c = c.wrapping_sub(b.rotate_left(14));
    a ^= c;
    a = a.wrapping_sub(c.rotate_left(11));
    b ^= a;
    b = b.wrapping_sub(a.rotate_left(25));
    c ^= b;
    c = c.wrapping_sub(b.rotate_left(16));
    a ^= c;
    a = a.wrapping_sub(c.rotate_left(4));
    b ^= a;
    b = b.wrapping_sub(a.rotate_left(14));
    c ^= b;
    c.wrapping_sub(b.rotate_left(24))
}

enum Refused {
    Badf,
    Inval,
    InUse,
    NotAvail,
    IsConn,
    TooManyInGroup,
    NoSlot,
}

use Refused::*;

struct Tables<'a> {
    header: &'a Header,
    socks: Vec<Sock>,
    ports: FastMap<u16, Port>,
    full: FastMap<Tuple, u32>,
    listen: FastMap<Place, Vec<u32>>,
    groups: Vec<u8>,
    used: u32,
}

impl<'a> Tables<'a> {
    fn new(header: &'a Header) -> Tables<'a> {
        Tables {
            header,
            socks: Vec::new(),
            ports: FastMap::default(),
            full: FastMap::default(),
            listen: FastMap::default(),
            groups: vec![0; header.bind as usize],
            used: 0,
        }
    }

    fn own(&mut self, s: u32, port: u16) {
        let sock = &mut self.socks[s as usize];
        sock.port = port;
        let list = self.ports.entry(port).or_default();
        sock.place = list.owners.len() as u32;
        list.owners.push(s);
        list.chosen += !sock.by_connect as u32;
        list.strict += !sock.reuseaddr as u32;
    }

    fn disown(&mut self, s: u32) {
        let sock = &self.socks[s as usize];
        let (place, port) = (sock.place as usize, sock.port);
        let (by_connect, strict) = (sock.by_connect, !sock.reuseaddr || sock.state == State::Listening);
        let Entry::Occupied(mut entry) = self.ports.entry(port) else { unreachable!() };
        let list = entry.get_mut();
        list.owners.swap_remove(place);
        if let Some(&moved) = list.owners.get(place) {
            self.socks[moved as usize].place = place as u32;
        }
        list.chosen -= !by_connect as u32;
        list.strict -= strict as u32;
        if list.owners.is_empty() {
            entry.remove();
        }
    }

    fn any_owner(&self, port: u16, test: impl Fn(u32, &Sock) -> bool) -> bool {
        self.ports
            .get(&port)
            .is_some_and(|list| list.owners.iter().any(|&o| test(o, &self.socks[o as usize])))
    }

    /// The ports of a search, in its order.
    fn order(&self, offset: u32, odd: bool) -> impl Iterator<Item = u16> {
        let lo = self.header.lo as u32;
        let n = self.header.hi as u32 - lo + 1;
        let (first, second) = if odd { (offset | 1, (offset | 1) - 1) } else { (offset & !1, (offset & !1) + 1) };
        let pass = move |e: u32| (0..n / 2).map(move |k| (lo + (e + 2 * k) % n) as u16);
        pass(first).chain(pass(second))
    }

    fn find_bind(&self, s: u32, addr: u32, offset: u32) -> Option<u16> {
        let a = &self.socks[s as usize];
        let strict = |_: u32, b: &Sock| {
            (a.dev == b.dev || a.dev == 0 || b.dev == 0) && (addr == b.addr || addr == 0 || b.addr == 0)
        };
        self.order(offset, true).find(|&port| !self.any_owner(port, strict))
    }

    fn taken(&self, t: Tuple, moment: u32) -> Result<Option<u32>, ()> {
        let Some(&old) = self.full.get(&t) else { return Ok(None) };
        let b = &self.socks[old as usize];
        if b.state == State::TimeWait && self.header.twreuse && moment > b.stamp {
            Ok(Some(old))
        } else {
            Err(())
        }
    }

    /// Puts a new Full socket in the place of the TIME_WAIT that it replaces.
    fn insert(&mut self, s: u32, replaced: Option<u32>) {
        let sock = &mut self.socks[s as usize];
        sock.state = State::Full;
        self.full.insert(sock.tuple(), s);
        match replaced {
            Some(old) => {
                self.disown(old);
                self.socks[old as usize].state = State::Unbound;
            }
            None => self.used += 1,
        }
    }

    fn slot_free(&self) -> bool {
        self.used < self.header.slots
    }

    fn remove(&mut self, s: u32) {
        let sock = &self.socks[s as usize];
        match sock.state {
            State::Unbound => return,
            State::Bound => {}
            State::Listening => {
                let key = listen_key(sock.addr, sock.port, sock.dev);
                let (reuseport, bucket) = (sock.reuseport, self.bucket(sock.port));
                let Entry::Occupied(mut entry) = self.listen.entry(key) else { unreachable!() };
                let list = entry.get_mut();
                let at = list.iter().position(|&m| m == s).unwrap();
                list.swap_remove(at);
                if list.is_empty() {
                    entry.remove();
                    self.groups[bucket] -= reuseport as u8;
                }
                self.used -= 1;
            }
            State::Full | State::TimeWait => {
                let t = sock.tuple();
                self.full.remove(&t);
                self.used -= 1;
            }
        }
        self.disown(s);
        self.socks[s as usize].state = State::Unbound;
    }

    fn bucket(&self, port: u16) -> usize {
        port as usize & (self.header.bind as usize - 1)
    }

    fn listener(&self, addr: u32, p: &(End, End, u16)) -> Option<u32> {
        let (src, dst, dev) = *p;
        let list = (dev != 0)
            .then(|| self.listen.get(&listen_key(addr, dst.port, dev)))
            .flatten()
            .or_else(|| self.listen.get(&listen_key(addr, dst.port, 0)))?;
        let place = if list.len() == 1 {
            0
        } else {
            let ports = (dst.port as u32) << 16 | src.port as u32;
            let hash = jhash_3words(dst.addr, src.addr, ports, self.header.seed);
            (hash as u64 * list.len() as u64 >> 32) as usize
        };
        Some(list[place])
    }

    fn look(&self, src: End, dst: End, dev: u16) -> Option<&Sock> {
        if let Some(&s) = self.full.get(&tuple(dst, src)) {
            let sock = &self.socks[s as usize];
            if sock.dev == 0 || sock.dev == dev {
                return Some(sock);
            }
        }
        let p = (src, dst, dev);
        let found = self.listener(dst.addr, &p).or_else(|| self.listener(0, &p))?;
        Some(&self.socks[found as usize])
    }
}

struct Machine<'t, 'h, 's> {
    tables: &'t mut Tables<'h>,
    section: &'s Section<'s>,
    number: u32,
    /// The open socket of each label.
    open: Vec<u32>,
    moment: u32,
    generator: Pcg,
    /// Its TIME_WAITs, by stamp.
    waits: std::collections::VecDeque<u32>,
}

const CLOSED: u32 = u32::MAX;

impl Machine<'_, '_, '_> {
    fn open(&self, label: u32) -> Result<u32, Refused> {
        let s = self.open[label as usize];
        if s == CLOSED { Err(Badf) } else { Ok(s) }
    }

    fn sock(&self, s: u32) -> &Sock {
        &self.tables.socks[s as usize]
    }

    fn offset(&mut self) -> u32 {
        let h = self.tables.header;
        let n = h.hi as u32 - h.lo as u32 + 1;
        h.offset.map_or_else(|| self.generator.next(), |o| o as u32) % n
    }

    fn bind(&mut self, label: u32, to: End) -> Result<u16, Refused> {
        let s = self.open(label)?;
        if self.sock(s).state != State::Unbound {
            return Err(Inval);
        }
        let port = if to.port == 0 {
            let offset = self.offset();
            self.tables.find_bind(s, to.addr, offset).ok_or(InUse)?
        } else {
            self.tables.socks[s as usize].addr = to.addr;
            let a = self.sock(s);
            let free = a.reuseaddr && self.tables.ports.get(&to.port).is_some_and(|list| list.strict == 0);
            if !free && self.tables.any_owner(to.port, |_, b| a.bind_conflict(b)) {
                return Err(InUse);
            }
            to.port
        };
        let sock = &mut self.tables.socks[s as usize];
        sock.addr = to.addr;
        sock.state = State::Bound;
        self.tables.own(s, port);
        Ok(port)
    }

    fn listen(&mut self, label: u32) -> Result<u16, Refused> {
        let s = self.open(label)?;
        let was = self.sock(s).state;
        match was {
            State::Full => return Err(Inval),
            State::Listening => return Ok(self.sock(s).port),
            State::Unbound => {
                let offset = self.offset();
                let port = self.tables.find_bind(s, 0, offset).ok_or(InUse)?;
                self.tables.socks[s as usize].addr = 0;
                self.tables.own(s, port);
            }
            _ => {}
        }
        let result = self.try_listen(s);
        if result.is_err() && was == State::Unbound {
            self.tables.disown(s);
        }
        result
    }

    fn try_listen(&mut self, s: u32) -> Result<u16, Refused> {
        let tables = &mut *self.tables;
        let a = &tables.socks[s as usize];
        let (port, key, reuseport) = (a.port, listen_key(a.addr, a.port, a.dev), a.reuseport);
        if tables.any_owner(port, |o, b| o != s && a.bind_conflict(b)) {
            return Err(InUse);
        }
        let bucket = tables.bucket(port);
        let members = tables.listen.get(&key).map_or(0, |list| list.len());
        if reuseport && (members == 64 || (members == 0 && tables.groups[bucket] == 8)) {
            return Err(TooManyInGroup);
        }
        if !tables.slot_free() {
            return Err(NoSlot);
        }
        tables.used += 1;
        tables.groups[bucket] += (reuseport && members == 0) as u8;
        tables.listen.entry(key).or_default().push(s);
        if tables.socks[s as usize].reuseaddr {
            tables.ports.get_mut(&port).unwrap().strict += 1;
        }
        tables.socks[s as usize].state = State::Listening;
        Ok(port)
    }

    fn connect(&mut self, label: u32, from: Option<u32>, to: End) -> Result<End, Refused> {
        let s = self.open(label)?;
        let sock = self.sock(s);
        let bound = match sock.state {
            State::Unbound => 0,
            State::Bound => sock.addr,
            _ => return Err(IsConn),
        };
        let local = from.unwrap_or(bound);
        if to.addr == 0 || to.port == 0 || local == 0 || (bound != 0 && local != bound) {
            return Err(Inval);
        }
        let moment = self.moment;
        if sock.state == State::Bound {
            let port = sock.port;
            let replaced = self.tables.taken(tuple(End { addr: local, port }, to), moment);
            let replaced = replaced.map_err(|()| NotAvail)?;
            if !self.tables.slot_free() {
                return Err(NoSlot);
            }
            self.fill(s, local, to);
            self.tables.insert(s, replaced);
            return Ok(End { addr: local, port });
        }
        let offset = self.offset();
        let tables = &mut *self.tables;
        for port in tables.order(offset, false) {
            if tables.ports.get(&port).is_some_and(|list| list.chosen > 0) {
                continue;
            }
            let Ok(replaced) = tables.taken(tuple(End { addr: local, port }, to), moment) else {
                continue;
            };
            if !tables.slot_free() {
                return Err(NoSlot);
            }
            tables.socks[s as usize].by_connect = true;
            self.fill(s, local, to);
            self.tables.own(s, port);
            self.tables.insert(s, replaced);
            return Ok(End { addr: local, port });
        }
        Err(NotAvail)
    }

    fn fill(&mut self, s: u32, local: u32, to: End) {
        let sock = &mut self.tables.socks[s as usize];
        sock.addr = local;
        sock.remote = to.addr;
        sock.rport = to.port;
    }

    fn accept(&mut self, l: u32, c: u32, from: End, at: End) -> Result<(), Refused> {
        let l = self.open(l)?;
        let parent = self.sock(l);
        if parent.state != State::Listening
            || at.port != parent.port
            || at.addr == 0
            || (parent.addr != 0 && parent.addr != at.addr)
            || from.addr == 0
            || from.port == 0
        {
            return Err(Inval);
        }
        let replaced = self.tables.full.get(&tuple(at, from)).copied();
        if replaced.is_some_and(|old| self.sock(old).state == State::Full) {
            return Err(NotAvail);
        }
        if !self.tables.slot_free() {
            return Err(NoSlot);
        }
        let parent = self.sock(l);
        let child = Sock { section: self.number, label: c, addr: at.addr, remote: from.addr, rport: from.port, ..*parent };
        let s = self.tables.socks.len() as u32;
        self.tables.socks.push(child);
        self.open[c as usize] = s;
        self.tables.own(s, at.port);
        self.tables.insert(s, replaced);
        Ok(())
    }

    /// Whether a TIME_WAIT was left; NoSlot where there was none for it.
    fn close(&mut self, label: u32) -> Result<bool, Refused> {
        let s = self.open(label)?;
        self.open[label as usize] = CLOSED;
        if self.sock(s).state != State::Full {
            self.tables.remove(s);
            return Ok(false);
        }
        if !self.tables.slot_free() {
            self.tables.remove(s);
            return Err(NoSlot);
        }
        let sock = &mut self.tables.socks[s as usize];
        sock.state = State::TimeWait;
        sock.stamp = self.moment;
        self.waits.push_back(s);
        Ok(true)
    }

    fn reap(&mut self) -> u64 {
        let mut count = 0;
        while let Some(&s) = self.waits.front() {
            let sock = self.sock(s);
            if sock.state == State::TimeWait {
                if (self.moment as u64) < sock.stamp as u64 + 60 {
                    break;
                }
                self.tables.remove(s);
                count += 1;
            }
            self.waits.pop_front();
        }
        count
    }

    fn step(&mut self, command: &Command, printer: &mut Printer) {
        let slots = self.tables.header.slots;
        let n = self.number as u64;
        let text = |label: u32| self.section.labels[label as usize];
        match *command {
            Command::Socket { s, uid, dev, reuseaddr, reuseport } => {
                let sock = Sock {
                    section: self.number,
                    label: s,
                    addr: 0,
                    remote: 0,
                    uid,
                    stamp: 0,
                    place: 0,
                    port: 0,
                    rport: 0,
                    dev,
                    reuseaddr,
                    reuseport,
                    by_connect: false,
                    state: State::Unbound,
                };
                self.open[s as usize] = self.tables.socks.len() as u32;
                self.tables.socks.push(sock);
                printer.begin(n, "socket", text(s)).text(b"ok\n");
            }
            Command::Bind { s, to } => {
                printer.begin(n, "bind", text(s));
                match self.bind(s, to) {
                    Ok(port) => printer.text(b"ok ").number(port as u64).text(b"\n"),
                    Err(why) => printer.refused(why, slots),
                };
            }
            Command::Listen { s } => {
                printer.begin(n, "listen", text(s));
                match self.listen(s) {
                    Ok(port) => printer.text(b"ok ").number(port as u64).text(b"\n"),
                    Err(why) => printer.refused(why, slots),
                };
            }
            Command::Connect { s, from, to } => {
                printer.begin(n, "connect", text(s));
                match self.connect(s, from, to) {
                    Ok(end) => printer.text(b"ok ").end(end).text(b"\n"),
                    Err(why) => printer.refused(why, slots),
                };
            }
            Command::Accept { l, c, from, at } => {
                printer.begin(n, "accept", text(c));
                match self.accept(l, c, from, at) {
                    Ok(()) => printer.text(b"ok\n"),
                    Err(why) => printer.refused(why, slots),
                };
            }
            Command::Close { s } => {
                printer.begin(n, "close", text(s));
                match self.close(s) {
                    Ok(true) => printer.text(b"ok time-wait\n"),
                    Ok(false) => printer.text(b"ok\n"),
                    Err(NoSlot) => printer.text(b"ok no-slot ").number(slots as u64).text(b" 0\n"),
                    Err(why) => printer.refused(why, slots),
                };
            }
            Command::Drop { s } => {
                printer.begin(n, "drop", text(s));
                match self.open(s) {
                    Ok(sock) => {
                        self.open[s as usize] = CLOSED;
                        self.tables.remove(sock);
                        printer.text(b"ok\n")
                    }
                    Err(why) => printer.refused(why, slots),
                };
            }
            Command::At(t) => {
                printer.number(n).text(b" at ").number(t as u64).text(b" ");
                if t < self.moment {
                    printer.refused(Inval, slots);
                } else {
                    self.moment = t;
                    printer.text(b"ok\n");
                }
            }
            Command::Reap => {
                let count = self.reap();
                printer.number(n).text(b" reap ok ").number(count).text(b"\n");
            }
            Command::Look { .. } | Command::Packets(_) => unreachable!(),
        }
    }
}

struct Printer<'o, 's> {
    out: &'o mut Vec<u8>,
    script: &'s Script<'s>,
    packets: u64,
}

impl Printer<'_, '_> {
    fn text(&mut self, bytes: &[u8]) -> &mut Self {
        self.out.extend_from_slice(bytes);
        self
    }

    fn number(&mut self, mut n: u64) -> &mut Self {
        let mut digits = [0u8; 20];
        let mut at = digits.len();
        loop {
            at -= 1;
            digits[at] = b'0' + (n % 10) as u8;
            n /= 10;
            if n == 0 {
                break;
            }
        }
        self.text(&digits[at..])
    }

    fn end(&mut self, end: End) -> &mut Self {
        let [a, b, c, d] = end.addr.to_be_bytes();
        self.number(a as u64).text(b".").number(b as u64).text(b".").number(c as u64).text(b".");
        self.number(d as u64).text(b":").number(end.port as u64)
    }

    fn begin(&mut self, section: u64, verb: &str, label: &[u8]) -> &mut Self {
        self.number(section).text(b" ").text(verb.as_bytes()).text(b" ").text(label).text(b" ")
    }

    fn refused(&mut self, why: Refused, slots: u32) -> &mut Self {
        match why {
            Badf => self.text(b"EBADF\n"),
            Inval => self.text(b"EINVAL\n"),
            InUse => self.text(b"EADDRINUSE\n"),
            NotAvail => self.text(b"EADDRNOTAVAIL\n"),
            IsConn => self.text(b"EISCONN\n"),
            TooManyInGroup => self.text(b"EMFILE\n"),
            NoSlot => self.text(b"ENFILE ").number(slots as u64).text(b" 0\n"),
        }
    }

    fn answer(&mut self, found: Option<&Sock>) {
        let Some(sock) = found else {
            self.text(b"none\n");
            return;
        };
        let script = self.script;
        self.text(match sock.state {
            State::Listening => b"listen ",
            State::TimeWait => b"time-wait ",
            _ => b"full ",
        });
        let label = script.sections[sock.section as usize - 1].labels[sock.label as usize];
        self.number(sock.section as u64).text(b".").text(label).text(b"\n");
    }

    /// The answer of the next packet; false where there is none.
    fn packet(&mut self, tables: &Tables, packets: &mut Reader) -> bool {
        let Some(item) = packets.next() else { return false };
        self.packets += 1;
        let k = self.packets;
        self.text(b"packet ").number(k).text(b" ");
        match item {
            Item::Packet { src, dst, dev } => self.answer(tables.look(src, dst, dev)),
            Item::Skip => drop(self.text(b"skip\n")),
            Item::Short => drop(self.text(b"short\n")),
        }
        true
    }
}

pub fn run(script: &Script, mut packets: Reader, out: &mut Vec<u8>) {
    let mut tables = Tables::new(&script.header);
    let mut printer = Printer { out, script, packets: 0 };
    for (i, section) in script.sections.iter().enumerate() {
        let number = i as u32 + 1;
        let mut machine = Machine {
            tables: &mut tables,
            section,
            number,
            open: vec![CLOSED; section.labels.len()],
            moment: 0,
            generator: Pcg::new(script.header.seed as u64, number as u64),
            waits: Default::default(),
        };
        for command in &section.commands {
            match *command {
                Command::Look { src, dst, dev } => {
                    printer.number(number as u64).text(b" look ");
                    printer.answer(machine.tables.look(src, dst, dev));
                }
                Command::Packets(n) => {
                    for _ in 0..n {
                        if !printer.packet(machine.tables, &mut packets) {
                            break;
                        }
                    }
                }
                ref other => machine.step(other, &mut printer),
            }
        }
    }
    while printer.packet(&tables, &mut packets) {}
    if packets.cut {
        printer.text(b"cut\n");
    }
}
