//! Scripts (docs/inet.1, SCRIPTS), without namespaces, late ports, requests and lists.

use std::collections::HashMap;
use std::hash::{BuildHasherDefault, Hasher};

#[derive(Clone, Copy)]
pub struct End {
    pub addr: u32,
    pub port: u16,
}

/// Labels are numbers within their section, in the order of first mention.
pub enum Command {
    Socket { s: u32, uid: u32, dev: u16, reuseaddr: bool, reuseport: bool },
    Bind { s: u32, to: End },
    Listen { s: u32 },
    Connect { s: u32, from: Option<u32>, to: End },
    Accept { l: u32, c: u32, from: End, at: End },
    Close { s: u32 },
    Drop { s: u32 },
    At(u32),
    Reap,
    Look { src: End, dst: End, dev: u16 },
    Packets(u32),
}

#[derive(Default)]
pub struct Section<'a> {
    pub labels: Vec<&'a [u8]>,
    pub commands: Vec<Command>,
}

pub struct Header {
    pub slots: u32,
    pub bind: u32,
    pub lo: u16,
    pub hi: u16,
    pub seed: u32,
    pub offset: Option<u16>,
    pub twreuse: bool,
}

pub struct Script<'a> {
    pub header: Header,
    pub sections: Vec<Section<'a>>,
    /// The capture's device and its first byte's place.
    pub capture: Option<(u16, usize)>,
}

/// FNV-like hash of short keys, a word at a time.
#[derive(Default)]
pub struct Fast(u64);

impl Fast {
    #[inline]
    fn add(&mut self, word: u64) {
        self.0 = (self.0.rotate_left(5) ^ word).wrapping_mul(0x517c_c1b7_2722_0a95);
    }
}

impl Hasher for Fast {
    #[inline]
    fn write(&mut self, bytes: &[u8]) {
        let mut chunks = bytes.chunks_exact(8);
        for c in &mut chunks {
            self.add(u64::from_le_bytes(c.try_into().unwrap()));
        }
        let mut last = 0u64;
        for &b in chunks.remainder() {
            last = last << 8 | b as u64;
        }
        self.add(last);
    }
    #[inline]
    fn write_u16(&mut self, n: u16) {
        self.add(n as u64)
    }
    #[inline]
    fn write_u32(&mut self, n: u32) {
        self.add(n as u64)
    }
    #[inline]
    fn write_u64(&mut self, n: u64) {
        self.add(n)
    }
    #[inline]
    fn write_usize(&mut self, n: usize) {
        self.add(n as u64)
    }
    #[inline]
    fn finish(&self) -> u64 {
        // hashbrown takes its bucket from the low bits and its tag from the top.
        self.0 ^ (self.0 >> 32)
    }
}

pub type FastMap<K, V> = HashMap<K, V, BuildHasherDefault<Fast>>;

pub fn number(word: &[u8], least: u64, most: u64) -> Option<u64> {
    if word.is_empty() || word.len() > 10 || (word[0] == b'0' && word.len() > 1) {
        return None;
    }
    let mut n = 0u64;
    for &b in word {
        if !b.is_ascii_digit() {
            return None;
        }
        n = n * 10 + (b - b'0') as u64;
    }
    (least <= n && n <= most).then_some(n)
}

fn address(word: &[u8]) -> Option<u32> {
    let mut addr = 0u32;
    let mut parts = 0;
    for part in word.split(|&b| b == b'.') {
        if parts == 4 {
            return None;
        }
        addr = addr << 8 | number(part, 0, 255)? as u32;
        parts += 1;
    }
    (parts == 4).then_some(addr)
}

fn end(word: &[u8]) -> Option<End> {
    let at = word.iter().position(|&b| b == b':')?;
    let addr = address(&word[..at])?;
    let port = number(&word[at + 1..], 0, 65535)? as u16;
    Some(End { addr, port })
}

fn dev(word: &[u8]) -> Option<u16> {
    number(word, 1, 65535).map(|n| n as u16)
}

fn power(word: &[u8], most: u64) -> Option<u32> {
    number(word, 1, most).filter(|n| n.is_power_of_two()).map(|n| n as u32)
}

struct Labels<'a> {
    /// Number of the label, and whether it was given.
    map: FastMap<&'a [u8], (u32, bool)>,
}

impl<'a> Labels<'a> {
    fn number(&mut self, word: &'a [u8], gives: bool, texts: &mut Vec<&'a [u8]>) -> Option<u32> {
        if word.len() > 16 || !word.iter().all(|b| b.is_ascii_alphanumeric() || matches!(b, b'_' | b'-')) {
            return None;
        }
        let entry = self.map.entry(word).or_insert_with(|| {
            texts.push(word);
            (texts.len() as u32 - 1, false)
        });
        if gives && entry.1 {
            return None;
        }
        entry.1 |= gives;
        Some(entry.0)
    }
}

fn command<'a>(words: &[&'a [u8]], labels: &mut Labels<'a>, texts: &mut Vec<&'a [u8]>) -> Option<Command> {
    Some(match *words {
        [b"look", src, dst] => Command::Look { src: end(src)?, dst: end(dst)?, dev: 0 },
        [b"look", src, dst, b"dev", d] => Command::Look { src: end(src)?, dst: end(dst)?, dev: dev(d)? },
        [b"socket", s, ref options @ ..] => {
            let mut rest = options;
            let (mut uid, mut device) = (0, 0);
            if let [b"uid", u, tail @ ..] = rest {
                uid = number(u, 0, u32::MAX as u64)? as u32;
                rest = tail;
            }
            if let [b"dev", d, tail @ ..] = rest {
                device = dev(d)?;
                rest = tail;
            }
            let (reuseaddr, reuseport) = match rest {
                [] => (false, false),
                [b"reuseaddr"] => (true, false),
                [b"reuseport"] => (false, true),
                [b"reuseaddr", b"reuseport"] => (true, true),
                _ => return None,
            };
            Command::Socket { s: labels.number(s, true, texts)?, uid, dev: device, reuseaddr, reuseport }
        }
        [b"bind", s, to] => Command::Bind { to: end(to)?, s: labels.number(s, false, texts)? },
        [b"listen", s] => Command::Listen { s: labels.number(s, false, texts)? },
        [b"connect", s, b"to", to] => {
            Command::Connect { to: end(to)?, from: None, s: labels.number(s, false, texts)? }
        }
        [b"connect", s, b"from", from, b"to", to] => Command::Connect {
            from: Some(address(from)?),
            to: end(to)?,
            s: labels.number(s, false, texts)?,
        },
        [b"accept", l, c, b"from", from, b"at", at] => {
            let (from, at) = (end(from)?, end(at)?);
            let l = labels.number(l, false, texts)?;
            Command::Accept { l, c: labels.number(c, true, texts)?, from, at }
        }
        [b"close", s] => Command::Close { s: labels.number(s, false, texts)? },
        [b"drop", s] => Command::Drop { s: labels.number(s, false, texts)? },
        [b"at", t] => Command::At(number(t, 0, u32::MAX as u64)? as u32),
        [b"reap"] => Command::Reap,
        [b"packets", n] => Command::Packets(number(n, 0, 1_000_000)? as u32),
        _ => return None,
    })
}

#[derive(Default)]
struct Seen {
    table: bool,
    range: bool,
    seed: bool,
    offset: bool,
    twreuse: bool,
}

fn header(words: &[&[u8]], h: &mut Header, seen: &mut Seen) -> Option<()> {
    let first = |flag: &mut bool| (!std::mem::replace(flag, true)).then_some(());
    match *words {
        [b"table", b"slots", n, b"bind", b, b"hash", e, b"listen", l] => {
            first(&mut seen.table)?;
            h.slots = number(n, 1, 65536)? as u32;
            h.bind = power(b, 256)?;
            power(e, 65536)?;
            power(l, 4096)?;
        }
        [b"range", lo, hi] => {
            first(&mut seen.range)?;
            h.lo = number(lo, 1, 65535)? as u16;
            h.hi = number(hi, h.lo as u64 + 1, 65535)? as u16;
            if (h.hi - h.lo) % 2 == 0 {
                return None;
            }
        }
        [b"seed", n] => {
            first(&mut seen.seed)?;
            h.seed = number(n, 0, u32::MAX as u64)? as u32;
        }
        [b"offset", n] => {
            first(&mut seen.offset)?;
            h.offset = Some(number(n, 0, 65535)? as u16);
        }
        [b"twreuse", n] => {
            first(&mut seen.twreuse)?;
            h.twreuse = number(n, 0, 1)? == 1;
        }
        _ => return None,
    }
    Some(())
}

/// The error is the number of the first line outside the grammar.
pub fn parse(input: &[u8]) -> Result<Script<'_>, u64> {
    let mut script = Script {
        header: Header { slots: 1024, bind: 16, lo: 32768, hi: 60999, seed: 0, offset: None, twreuse: false },
        sections: Vec::new(),
        capture: None,
    };
    let mut seen = Seen::default();
    let mut labels = Labels { map: FastMap::default() };
    let mut words: Vec<&[u8]> = Vec::new();
    let mut at = 0;
    let mut count = 0u64;
    while at < input.len() {
        let rest = &input[at..];
        let len = memchr(rest);
        let next = at + (len + 1).min(rest.len());
        let mut line = &rest[..len];
        if let [head @ .., b'\r'] = line {
            line = head;
        }
        at = next;
        count += 1;
        words.clear();
        words.extend(line.split(|b| matches!(b, b' ' | b'\t')).filter(|w| !w.is_empty()));
        if words.first().map_or(true, |w| w[0] == b'#') {
            continue;
        }
        match *words {
            [b"capture"] => {
                script.capture = Some((0, at));
                return Ok(script);
            }
            [b"capture", b"dev", d] => {
                script.capture = Some((dev(d).ok_or(count)?, at));
                return Ok(script);
            }
            [b"script", n] => {
                let due = script.sections.len() as u64 + 1;
                number(n, due, due).filter(|&n| n <= 64).ok_or(count)?;
                script.sections.push(Section::default());
                labels.map.clear();
                continue;
            }
            _ => {}
        }
        match script.sections.last_mut() {
            None => header(&words, &mut script.header, &mut seen).ok_or(count)?,
            Some(section) => {
                let c = command(&words, &mut labels, &mut section.labels).ok_or(count)?;
                section.commands.push(c);
            }
        }
    }
    Ok(script)
}

/// The place of the first line feed, or the length.
fn memchr(bytes: &[u8]) -> usize {
    bytes.iter().position(|&b| b == b'\n').unwrap_or(bytes.len())
}
