//! The plain program: `inet run` and `inet make` as an engineer would write them
//! for speed alone. It is what `inet` is measured against; nothing is proved.

mod capture;
mod engine;
mod parse;
mod pcg;

use std::io::{Read, Write};
use std::process::exit;

const LIMIT: u64 = 16_777_216;

fn write_out(bytes: &[u8]) {
    let mut out = std::io::stdout().lock();
    if out.write_all(bytes).and_then(|()| out.flush()).is_err() {
        exit(7);
    }
}

fn run() {
    let mut input = Vec::new();
    let stdin = std::io::stdin().lock();
    if stdin.take(LIMIT + 1).read_to_end(&mut input).is_err() {
        exit(6);
    }
    if input.len() as u64 > LIMIT {
        exit(5);
    }
    let script = match parse::parse(&input) {
        Ok(script) => script,
        Err(line) => {
            write_out(format!("bad script line {line}\n").as_bytes());
            exit(3);
        }
    };
    let bytes = script.capture.map_or(&input[..0], |(_, at)| &input[at..]);
    let dev = script.capture.map_or(0, |(dev, _)| dev);
    let Some(packets) = capture::Reader::new(bytes, dev) else {
        write_out(b"bad capture\n");
        exit(4);
    };
    let mut out = Vec::with_capacity(input.len() + input.len() / 4);
    engine::run(&script, packets, &mut out);
    write_out(&out);
}

fn number(word: &str, most: u64) -> Option<u64> {
    parse::number(word.as_bytes(), 0, most)
}

fn make(seed: u64, count: u64) {
    let text = make_text(seed, count);
    let script = parse::parse(&text).expect("generated text is in the grammar");
    let packets = capture::Reader::new(&[], 0).expect("no capture");
    let mut out = Vec::new();
    engine::run(&script, packets, &mut out);
    let (mut commands, mut ok, mut found, mut none) = (0u64, 0u64, 0u64, 0u64);
    for line in out.split(|&b| b == b'\n').filter(|l| !l.is_empty()) {
        let words: Vec<&[u8]> = line.split(|&b| b == b' ').collect();
        match words[1] {
            b"look" if words[2] == b"none" => none += 1,
            b"look" => found += 1,
            verb => {
                commands += 1;
                let reply = if verb == b"reap" { words[2] } else { words[3] };
                ok += (reply == b"ok") as u64;
            }
        }
    }
    let text = format!(
        "commands {commands}\nok {ok}\nrefused {}\nfound {found}\nnone {none}\n",
        commands - ok
    );
    write_out(text.as_bytes());
}

/// The script of `make` (docs/inet.1, GENERATED SCRIPTS).
fn make_text(seed: u64, count: u64) -> Vec<u8> {
    let mut t = Vec::new();
    let _ = write!(
        t,
        "table slots 4096 bind 16 hash 1024 listen 16\nseed {seed}\ntwreuse 1\nscript 1\n"
    );
    let mut g = pcg::Pcg::new(seed, 1000);
    for i in 1..=count {
        let w = g.next() as u64;
        let x = 1 + (w / 8) % 4;
        let p = 8000 + (w / 32) % 64;
        let j = 1 + (w / 2048) % i;
        let r = 1000 + i % 60000;
        let _ = match w % 8 {
            0 => write!(t, "socket s{i} reuseaddr\nbind s{i} 0.0.0.0:{p}\n"),
            1 => write!(t, "socket s{i} reuseport\nbind s{i} 10.0.0.{x}:{p}\nlisten s{i}\n"),
            2 => write!(t, "socket s{i}\nbind s{i} 10.0.0.{x}:0\nlisten s{i}\n"),
            3 => write!(t, "socket s{i}\nconnect s{i} from 10.0.0.{x} to 10.0.1.1:{p}\n"),
            4 => write!(t, "accept s{j} s{i} from 10.0.1.2:{r} at 10.0.0.{x}:{p}\n"),
            5 => write!(t, "close s{j}\n"),
            6 => write!(t, "look 10.0.1.2:{r} 10.0.0.{x}:{p}\n"),
            _ => write!(t, "at {i}\nreap\n"),
        };
    }
    t
}

fn main() {
    let words: Vec<String> = std::env::args().skip(1).collect();
    match words.iter().map(String::as_str).collect::<Vec<_>>()[..] {
        ["run"] => run(),
        ["make", seed, count] => match (number(seed, u32::MAX as u64), number(count, 100_000)) {
            (Some(seed), Some(count)) => make(seed, count),
            _ => exit(2),
        },
        ["make-text", seed, count] => match (number(seed, u32::MAX as u64), number(count, 100_000)) {
            (Some(seed), Some(count)) => write_out(&make_text(seed, count)),
            _ => exit(2),
        },
        _ => exit(2),
    }
}
