//! Captures in pcap (docs/inet.1, CAPTURES).

use crate::parse::End;

pub enum Item {
    Packet { src: End, dst: End, dev: u16 },
    Skip,
    Short,
}

pub struct Reader<'a> {
    rest: &'a [u8],
    big: bool,
    ethernet: bool,
    dev: u16,
    pub cut: bool,
}

impl<'a> Reader<'a> {
    /// None where there are bytes and they begin with no header.
    pub fn new(bytes: &'a [u8], dev: u16) -> Option<Reader<'a>> {
        let mut reader = Reader { rest: &[], big: false, ethernet: false, dev, cut: false };
        if bytes.is_empty() {
            return Some(reader);
        }
        let head = bytes.get(..24)?;
        reader.rest = &bytes[24..];
        reader.big = match head[..4] {
            [0xd4, 0xc3, 0xb2, 0xa1] | [0x4d, 0x3c, 0xb2, 0xa1] => false,
            [0xa1, 0xb2, 0xc3, 0xd4] | [0xa1, 0xb2, 0x3c, 0x4d] => true,
            _ => return None,
        };
        let version = if reader.big { [0, 2, 0, 4] } else { [2, 0, 4, 0] };
        if head[4..8] != version {
            return None;
        }
        match reader.word(&head[20..24]) {
            1 => reader.ethernet = true,
            101 | 228 => {}
            _ => return None,
        }
        Some(reader)
    }

    fn word(&self, b: &[u8]) -> u32 {
        let b = b[..4].try_into().unwrap();
        if self.big { u32::from_be_bytes(b) } else { u32::from_le_bytes(b) }
    }

    pub fn next(&mut self) -> Option<Item> {
        if self.rest.is_empty() {
            return None;
        }
        let stored = self.rest.get(..16).map(|head| self.word(&head[8..12]) as usize);
        let Some(packet) = stored.and_then(|len| self.rest[16..].get(..len)) else {
            self.cut = true;
            self.rest = &[];
            return None;
        };
        self.rest = &self.rest[16 + packet.len()..];
        Some(self.judge(packet))
    }

    fn judge(&self, p: &[u8]) -> Item {
        let be16 = |at: usize| u16::from_be_bytes([p[at], p[at + 1]]);
        let mut ip = 0;
        if self.ethernet {
            if p.len() < 14 {
                return Item::Short;
            }
            let mut kind = be16(12);
            ip = 14;
            if kind == 0x8100 {
                if p.len() < 18 {
                    return Item::Short;
                }
                kind = be16(16);
                ip = 18;
            }
            if kind != 0x0800 {
                return Item::Skip;
            }
        }
        let p = &p[ip..];
        if p.len() < 20 {
            return Item::Short;
        }
        let head = (p[0] & 15) as usize * 4;
        if p[0] >> 4 != 4 || head < 20 || p[9] != 6 || (p[6] & 0x1f) != 0 || p[7] != 0 {
            return Item::Skip;
        }
        if p.len() < head + 4 {
            return Item::Short;
        }
        let addr = |at: usize| u32::from_be_bytes(p[at..at + 4].try_into().unwrap());
        let port = |at: usize| u16::from_be_bytes([p[at], p[at + 1]]);
        Item::Packet {
            src: End { addr: addr(12), port: port(head) },
            dst: End { addr: addr(16), port: port(head + 2) },
            dev: self.dev,
        }
    }
}
