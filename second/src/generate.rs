//! Scripts made at random: valid, damaged and cut anywhere, with the edges likely.
use crate::bench::{escape, Bench};
use crate::datagram::{self, Datagram};
use crate::hash::{crc16, message_id};
use crate::message::{write_line, Message};

struct Dice(u64);

impl Dice {
    fn roll(&mut self, n: usize) -> usize {
        self.0 = self.0.wrapping_mul(6364136223846793005).wrapping_add(1442695040888963407);
        ((self.0 >> 33) as usize) % n
    }
    fn chance(&mut self, percent: usize) -> bool {
        self.roll(100) < percent
    }
    fn pick<'a, T>(&mut self, of: &'a [T]) -> &'a T {
        &of[self.roll(of.len())]
    }
    /// A length, often at or one past a limit.
    fn length(&mut self, limit: usize) -> usize {
        match self.roll(8) {
            0 => 0,
            1 => 1,
            2 => limit,
            3 => limit + 1,
            4 => limit.saturating_sub(1),
            _ => self.roll(limit + 1),
        }
    }
    fn bytes(&mut self, n: usize) -> Vec<u8> {
        (0..n).map(|_| self.roll(256) as u8).collect()
    }
    fn of(&mut self, letters: &[u8], n: usize) -> Vec<u8> {
        (0..n).map(|_| *self.pick(letters)).collect()
    }
    fn time(&mut self) -> u32 {
        match self.roll(10) {
            0 => 0,
            1 => u32::MAX,
            2 => u32::MAX - self.roll(700) as u32,
            3 => 604800 + self.roll(3) as u32,
            _ => self.roll(3000) as u32,
        }
    }
    fn salt(&mut self) -> Option<i64> {
        match self.roll(6) {
            0 => Some(i64::MIN),
            1 => Some(i64::MAX),
            2 => Some(-(self.roll(1000) as i64)),
            3 => Some(1714982400000 + self.roll(100000) as i64),
            _ => None,
        }
    }
}

const ALNUM: &[u8] = b"0123456789ABCXYZabcxyz";
const APP: &[u8] = b"abcXYZ019-_.";
const VISIBLE: &[u8] = b"!\"#$&'()*+,-./0123456789:;<>?@AZ[]^_`az{|}~%";

fn callsign(d: &mut Dice) -> Vec<u8> {
    if d.chance(85) {
        return d.pick(&[&b"G0ORIG"[..], b"M0LTE-9", b"G7VVK-15", b"A", b"gb7rdg", b"GB7RDG"]).to_vec();
    }
    let n = match d.roll(20) {
        0 => d.length(9),
        _ => 1 + d.roll(9),
    };
    let mut s = d.of(ALNUM, n);
    match d.roll(20) {
        0 => s.extend(format!("-{}", d.roll(18)).bytes()),
        1 => s.extend(*d.pick(&[&b"-01"[..], b"-0", b"-", b"-16", b"-1x", b"--1", b"-150"])),
        2..=8 => s.extend(format!("-{}", 1 + d.roll(15)).bytes()),
        _ => {}
    }
    s
}

fn destination(d: &mut Dice) -> Vec<u8> {
    let n = match d.roll(20) {
        0 => d.length(32),
        1..=5 => 1 + d.roll(32),
        _ => 1 + d.roll(8),
    };
    let mut s = d.of(APP, n);
    if !d.chance(1) {
        s.push(b'@');
    }
    s.extend(callsign(d));
    s
}

/// A text, mostly visible, sometimes with characters of several bytes, rarely damaged.
fn visible(d: &mut Dice, n: usize) -> Vec<u8> {
    let mut s = vec![];
    while s.len() < n {
        match d.roll(40) {
            0 => s.extend("é".bytes()),
            1 => s.extend("€".bytes()),
            2 => s.extend("𐍈".bytes()),
            3 if d.chance(2) => s.push(d.roll(256) as u8),
            _ => s.push(*d.pick(VISIBLE)),
        }
    }
    // cut at a character's end, and at times within it
    while s.len() > n && !d.chance(3) {
        s.pop();
        while s.last().is_some_and(|b| *b >= 0x80) && std::str::from_utf8(&s).is_err() {
            s.pop();
        }
    }
    s.truncate(n);
    s
}

fn stream_id(d: &mut Dice) -> Vec<u8> {
    if d.chance(95) {
        return d.pick(&[&b"chat"[..], b"relay1", b"r2", "é".as_bytes()]).to_vec();
    }
    let n = d.length(255);
    visible(d, n)
}

fn message(d: &mut Dice) -> Message {
    let mut m = Message { id: d.roll(1 << 28) as u32, len: d.roll(4097) as u32, salt: d.salt(), dst: destination(d), ..Message::default() };
    if d.chance(30) {
        m.ttl = Some(*d.pick(&[1, 600, 2147483647]));
    }
    if d.chance(40) {
        m.src = Some(callsign(d));
    }
    if d.chance(30) {
        let total = *d.pick(&[2, 3, 16, 65535]);
        m.fragment = Some((d.roll(1 << 28) as u32, 1 + d.roll(total as usize) as u16, total));
    }
    if d.chance(30) {
        m.stream = Some((stream_id(d), d.time(), d.time()));
    }
    for i in 0..if d.chance(10) { d.roll(10) } else { d.roll(3) } {
        let n = if d.chance(5) { d.length(31) } else { d.roll(6) };
        let mut key = visible(d, n);
        key.retain(|&b| b != b'=');
        if !d.chance(2) {
            key.push(b'0' + i as u8);
        }
        let n = if d.chance(5) { d.length(128) } else { d.roll(8) };
        m.headers.push((key, visible(d, n)));
    }
    m
}

/// A line: a message's, with its tokens shuffled, doubled, dropped or damaged at times, and its check made anew or not.
fn line(d: &mut Dice) -> Vec<u8> {
    let m = message(d);
    let whole = write_line(&m, 1 << 20).unwrap_or_else(|_| {
        let short = Message { headers: vec![], stream: None, ..m };
        write_line(&short, 1 << 20).unwrap_or_default()
    });
    let text = &whole[..whole.len().saturating_sub(10)];
    let mut words: Vec<Vec<u8>> = text.split(|&c| c == b' ').map(<[u8]>::to_vec).collect();
    if d.chance(40) && words.len() > 4 {
        let (i, j) = (2 + d.roll(words.len() - 2), 2 + d.roll(words.len() - 2));
        words.swap(i, j);
    }
    if d.chance(30) {
        for _ in 0..1 + d.roll(2) {
            damage(d, &mut words);
        }
    }
    let mut out = words.join(&b' ');
    match d.roll(24) {
        0..=5 => {}
        6 => out.extend(format!(" chk={:04x}", d.roll(65536)).bytes()),
        7 => out.extend(*d.pick(&[&b" chk=ABCD"[..], b" chk=", b" chk=12345", b" ", b" chk=29b"])),
        _ => out.extend(format!(" chk={:04x}", crc16(&out)).into_bytes()),
    }
    if d.chance(8) {
        let to = 505 + d.roll(12);
        if out.len() < to {
            let pad = format!(" pad={}", "x".repeat(to.saturating_sub(out.len() + 5).min(128)));
            let at = out.len() - out.iter().rev().position(|&c| c == b' ').map_or(0, |p| p + 1);
            out.splice(at..at, pad.into_bytes());
        }
    }
    out
}

fn damage(d: &mut Dice, words: &mut Vec<Vec<u8>>) {
    if words.is_empty() {
        return;
    }
    let at = d.roll(words.len());
    match d.roll(12) {
        0 => drop(words.remove(at)),
        1 => {
            let w = words[at].clone();
            words.push(w);
        }
        2 => words.push(d.pick(&[
            &b"len=1"[..], b"fmt=d", b"clen=5", b"ttl=0", b"ttl=2147483648", b"s=-0", b"s=+1", b"s=9223372036854775808", b"s=01", b"src=A--1",
            b"mid=1234567", b"frag=1/2", b"frag=3/2", b"frag=0/2", b"frag=1/1", b"sid=x", b"sn=1", b"gt=0", b"sn=4294967296", b"=x", b"x=", b"x", b"",
            b"len=2147483647", b"len=4097", b"chk=0000", b"s=-9223372036854775808",
        ]).to_vec()),
        3 => words[at].clear(),
        4 => words[at].push(*d.pick(b" =/-0aA\x7f\x1f\xff")),
        5 => {
            let i = d.roll(words[at].len() + 1);
            words[at].insert(i, d.roll(256) as u8);
        }
        6 => words.truncate(at),
        7 => {
            if let Some(w) = words.iter_mut().find(|w| w.starts_with(b"fmt=")) {
                *w = d.pick(&[&b"fmt=d"[..], b"fmt=x", b"fmt="]).to_vec();
            }
            if d.chance(70) {
                words.push(format!("clen={}", d.roll(9)).into_bytes());
            }
        }
        8 => {
            if let Some(w) = words.iter_mut().find(|w| w.starts_with(b"len=")) {
                *w = format!("len={}", d.pick(&[0u32, 4096, 4097, 2147483647, 7])).into_bytes();
            }
        }
        _ => {
            if !words[at].is_empty() {
                let i = d.roll(words[at].len());
                words[at][i] ^= 1 << d.roll(8);
            }
        }
    }
}

fn hop_list(d: &mut Dice) -> Vec<Vec<u8>> {
    let n = if d.chance(20) { d.length(16) } else { d.roll(4) };
    (0..n).map(|_| callsign(d)).collect()
}

fn datagram_bytes(d: &mut Dice) -> Vec<u8> {
    let n = if d.chance(10) { d.length(4096) } else { d.roll(20) };
    let payload = d.bytes(n);
    let message = message(d);
    let made = Datagram {
        message,
        link: d.chance(30).then(|| callsign(d)),
        flood: d.chance(30).then(|| d.roll(256) as u8),
        route: d.chance(30).then(|| hop_list(d)),
        hops: d.chance(30).then(|| hop_list(d)),
        payload_at: 0,
        payload_len: 0,
    };
    let mut out = datagram::write(&made, &payload, 1 << 20).unwrap_or_default();
    let edits = if d.chance(60) { 0 } else { 1 + d.roll(2) };
    for _ in 0..edits {
        let at = if d.chance(50) { d.roll(out.len().min(24)) } else { d.roll(out.len()) };
        match d.roll(5) {
            0 => out.truncate(at),
            1 => out.insert(at, d.roll(256) as u8),
            2 => out.push(d.roll(256) as u8),
            _ => out[at] ^= 1 << d.roll(8),
        }
        if out.is_empty() {
            break;
        }
    }
    out
}

fn conversation(d: &mut Dice) -> Vec<u8> {
    let mut out = vec![];
    for _ in 0..1 + d.roll(5) {
        match d.roll(10) {
            0 => out.extend(*d.pick(&[&b"help\n"[..], b"INFO\n", b"who\n", b"rev\n", b"\n", b"quit\r\n", b" quit\n", b"ihave\n", b"ihave \n", b"IHAVE x\n"])),
            1 => out.extend(*d.pick(&[&b"data\n"[..], b"data 1234567\n", b"quit\n", b"Q\n", b"bYe\n", b"EXIT\n", b"ihave 12345678 x\n", b"ihave 1234567\n", b"ihave \x80 x\n"])),
            2 => {
                let n = 505 + d.roll(12);
                let byte = *d.pick(b"ax \r");
                out.extend(std::iter::repeat(byte).take(n));
                out.push(b'\n');
            }
            3 => {
                out.extend(line(d));
                out.push(b'\n');
            }
            _ => out.extend(exchange(d)),
        }
    }
    out
}

fn exchange(d: &mut Dice) -> Vec<u8> {
    let n = match d.roll(12) {
        0 => d.length(4096),
        1 => 0,
        _ => d.roll(40),
    };
    let payload = d.bytes(n);
    let mut m = message(d);
    m.headers.truncate(2);
    m.len = payload.len() as u32;
    m.dst = b"mail@G0RCV".to_vec();
    m.id = if d.chance(85) { message_id(m.salt, &payload) } else { m.id };
    let mut out = write_line(&m, 1 << 20).unwrap_or(b"eh\n".to_vec());
    match d.roll(12) {
        0 => out.extend(b"quit\n"),
        1 => out.extend(format!("DATA {:07x}\n", m.id).bytes()),
        2 => out.extend(format!("data {:07x}\r\n", m.id).bytes()),
        3 => out.extend(format!("data {:07x}\n\n", m.id).bytes()),
        _ => out.extend(format!("data {:07x}\n", m.id).bytes()),
    }
    out.extend(payload);
    out
}

/// The script so far, and a bench that has answered it, so that the next line can follow from the answers.
struct Script {
    text: Vec<u8>,
    bench: Bench,
}

impl Script {
    fn say(&mut self, words: &[&str]) -> String {
        let line = words.join(" ");
        self.text.extend(line.bytes());
        self.text.push(b'\n');
        self.bench.line(line.as_bytes()).unwrap_or_default()
    }
}

pub fn script(seed: u64, lines: usize, area: &str) -> Option<Vec<u8>> {
    let mut d = Dice(seed.wrapping_mul(0x9E3779B97F4A7C15) ^ area.len() as u64);
    let mut out = Script { text: vec![], bench: Bench::new() };
    let one: fn(&mut Dice, &mut Script) = match area {
        "hashes" => hashes,
        "text" => text,
        "lines" => lines_area,
        "datagrams" => datagrams,
        "sessions" => sessions,
        "streams" => streams,
        "arrivals" => arrivals,
        "images" => images,
        "fragments" => fragments,
        "grammar" => grammar,
        _ => return None,
    };
    let mut count = 0;
    while count < lines {
        let from = out.text.len();
        one(&mut d, &mut out);
        count += out.text[from..].iter().filter(|&&b| b == b'\n').count();
    }
    Some(out.text)
}

fn hashes(d: &mut Dice, out: &mut Script) {
    let n = *d.pick(&[0, 1, 3, 55, 56, 57, 63, 64, 65, 119, 120, 128, 1000, 4096, 4097, 16384]);
    let n = if d.chance(50) { d.roll(300) } else { n };
    let b = escape(&d.bytes(n));
    match d.roll(3) {
        0 => out.say(&["sha1", &b]),
        1 => out.say(&["crc", &b]),
        _ => {
            let s = d.salt().map_or("~".into(), |s| s.to_string());
            out.say(&["id", &s, &b])
        }
    };
}

/// A run of ASCII, often of a length about 8, 16, 32, 40, 64 or 72.
fn ascii(d: &mut Dice) -> Vec<u8> {
    let n = if d.chance(30) { d.roll(100) } else { d.pick(&[8, 16, 32, 40, 64, 72]) + d.roll(3) - 1 };
    (0..n).map(|_| d.roll(128) as u8).collect()
}

fn text(d: &mut Dice, out: &mut Script) {
    let edges: [&[u8]; 16] = [
        b"\xc0\x80", b"\xc1\xbf", b"\xc2\x80", b"\xdf\xbf", b"\xe0\x9f\xbf", b"\xe0\xa0\x80", b"\xed\x9f\xbf", b"\xed\xa0\x80",
        b"\xef\xbf\xbf", b"\xf0\x8f\xbf\xbf", b"\xf0\x90\x80\x80", b"\xf4\x8f\xbf\xbf", b"\xf4\x90\x80\x80", b"\xf5\x80\x80\x80", b"\x80", b"\xff",
    ];
    let mut s = vec![];
    for _ in 0..d.roll(6) {
        match d.roll(4) {
            0 => s.extend(*d.pick(&edges)),
            1 => s.extend(char::from_u32(d.roll(0x110000) as u32).unwrap_or('x').to_string().bytes()),
            2 => s.extend(ascii(d)),
            _ => s.push(d.roll(256) as u8),
        }
    }
    if d.chance(20) {
        s.pop();
    }
    out.say(&["utf8", &escape(&s)]);
}

fn lines_area(d: &mut Dice, out: &mut Script) {
    let l = escape(&line(d));
    if d.chance(60) {
        out.say(&["line", &l]);
    } else {
        let room = d.pick(&[0, 60, 100, 200, 512, 513, 16384]).to_string();
        out.say(&["reline", &l, &room]);
    }
}

fn datagrams(d: &mut Dice, out: &mut Script) {
    let b = datagram_bytes(d);
    if d.chance(60) {
        out.say(&["datagram", &escape(&b)]);
    } else {
        let room = match d.roll(4) {
            0 => b.len().saturating_sub(1),
            1 => b.len(),
            2 => 0,
            _ => 16384,
        };
        out.say(&["redatagram", &escape(&b), &room.min(16384).to_string()]);
    }
}

/// A conversation cut anywhere; what a call left unused is offered again with the bytes that follow it.
fn sessions(d: &mut Dice, out: &mut Script) {
    if d.chance(5) {
        let (p, r) = (*d.pick(&[4096, 4095, 0]), *d.pick(&[64, 24, 23, 0]));
        out.say(&["lend", &p.to_string(), &r.to_string()]);
    }
    if d.chance(10) {
        out.say(&["fill", &d.roll(256).to_string()]);
    }
    out.say(&["open"]);
    let bytes = conversation(d);
    let finest = *d.pick(&[1, 2, 4, 4, 4]);
    let mut at = 0;
    while at < bytes.len() {
        let n = match d.roll(finest) {
            0 => 1 + d.roll(8),
            1 => 1 + d.roll(100),
            _ => bytes.len() - at,
        };
        let answer = out.say(&["feed", &escape(&bytes[at..bytes.len().min(at + n)])]);
        let used = answer.strip_prefix("used ").and_then(|a| a.split(' ').next()?.parse::<usize>().ok());
        let Some(used) = used else { break };
        at += used;
        if d.chance(3) {
            out.say(&["feed", "-"]);
        }
        if d.chance(3) {
            out.say(&["fill", &d.roll(256).to_string()]);
        }
    }
    out.say(&["peek", "payload", &d.roll(60).to_string(), &(1 + d.roll(60)).to_string()]);
    out.say(&["peek", "reply", "0", "64"]);
    out.say(&["lend", "4096", "64"]);
}

fn stream_call(d: &mut Dice, out: &mut Script) {
    let (o, s) = match d.roll(24) {
        0 => (escape(&callsign(d)), escape(&stream_id(d))),
        n => (["G0ORIG", "M0LTE-9"][n % 2].to_string(), ["chat", "r2"][n / 16].to_string()),
    };
    let expected = out.bench.table.expected(o.as_bytes(), s.as_bytes());
    let time = d.time().to_string();
    match d.roll(16) {
        0..=8 => {
            let n = match d.roll(40) {
                0 => 0,
                1 => u32::MAX.into(),
                2 => u64::from(u32::MAX) - 1,
                3 => expected.saturating_sub(1),
                4..=12 => expected,
                13 => expected + 15,
                14 => expected + 16,
                _ => expected + d.roll(18) as u64,
            };
            let timeout = d.pick(&[0, 1, 600, 600, u32::MAX]).to_string();
            out.say(&["offer", &o, &s, &n.min(u32::MAX.into()).to_string(), &timeout, &d.roll(1000).to_string(), &time])
        }
        9..=12 => out.say(&["take", &o, &s, &time]),
        13 => out.say(&["force", &o, &s, &time]),
        14 => out.say(&["close", &o, &s]),
        _ => {
            let room = d.pick(&["16384", "16384", "3", "2", "0"]).to_string();
            out.say(&["save", &room])
        }
    };
}

fn streams(d: &mut Dice, out: &mut Script) {
    if d.chance(1) {
        out.say(&["load", "SE%00"]);
    }
    if d.roll(400) == 0 {
        for i in 0..34 {
            out.say(&["offer", "G0ORIG", &format!("many{i}"), "2", "600", "1", "5"]);
        }
    }
    if d.roll(100) == 0 {
        let first = out.bench.table.expected(b"G0ORIG", b"chat") + 1;
        for n in first..first + 17 {
            out.say(&["offer", "G0ORIG", "chat", &n.min(u32::MAX.into()).to_string(), "600", "3", "9"]);
        }
    }
    stream_call(d, out);
}

/// One workshop's arrival of the messages 1 to n of a stream: what is still to come, what the row holds, and what was given out.
struct Arrival {
    stream: &'static str,
    to_come: Vec<usize>,
    held: Vec<usize>,
    given: Vec<String>,
    ended: bool,
}

impl Arrival {
    fn new(stream: &'static str, n: usize) -> Self {
        Arrival { stream, to_come: (1..=n).collect(), held: vec![], given: vec![], ended: false }
    }
    /// An offer that the row has room for, in any order, or a take; once all has come, takes until one gives nothing.
    fn go_on(&mut self, d: &mut Dice, out: &mut Script) {
        let time = d.time().to_string();
        let next = self.given.len() + 1;
        let full = self.held.iter().filter(|&&n| n > next).count() == 15;
        let may_offer = if full { self.to_come.first() == Some(&next) } else { !self.to_come.is_empty() };
        if may_offer && d.chance(60) {
            let at = if full { 0 } else { d.roll(self.to_come.len().min(20)) };
            let n = self.to_come.remove(at);
            let answer = out.say(&["offer", "G0ORIG", self.stream, &n.to_string(), "0", &(1000 + n).to_string(), &time]);
            assert_eq!(answer, "accepted", "message {n} of {} after {:?}", self.stream, self.given);
            self.held.push(n);
            return;
        }
        let answer = out.say(&["take", "G0ORIG", self.stream, &time]);
        if answer.starts_with("given") {
            self.held.retain(|&n| n != next);
            self.given.push(answer);
        } else {
            self.ended = self.to_come.is_empty();
        }
    }
}

/// Document 02, W14: the messages 1 to n come to two streams of one table, which stand for two workshops, in an order of their own each, with takes
/// strewn in, calls on other streams between, and at the end takes until nothing comes. The script is made only if both lists are 1 to n in order.
fn arrivals(d: &mut Dice, out: &mut Script) {
    out.say(&["load", "SE%00"]);
    let n = 1 + d.roll(40);
    let mut workshops = [Arrival::new("here", n), Arrival::new("there", n)];
    while workshops.iter().any(|w| !w.ended) {
        let one = d.roll(2);
        if !workshops[one].ended {
            workshops[one].go_on(d, out);
        }
        if d.chance(10) {
            stream_call(d, out);
        }
    }
    let in_order: Vec<String> = (1..=n).map(|i| format!("given {i} {}", 1000 + i)).collect();
    for w in workshops {
        assert_eq!(w.given, in_order, "what {} gave out", w.stream);
    }
}

/// A row's record, with rules broken at times.
fn record(d: &mut Dice, row: usize, key: usize) -> Vec<u8> {
    let mut out = vec![0x53, if d.chance(2) { 0x55 } else { 0x54 }, row as u8];
    let call = if d.chance(90) { b"G0ORIG".to_vec() } else { callsign(d) };
    let stream = if d.chance(90) { format!("s{key}").into_bytes() } else { stream_id(d) };
    out.push(call.len() as u8);
    out.extend(call);
    out.push(stream.len() as u8);
    out.extend(stream);
    let expected: u64 = *d.pick(&[1, 1, 2, 5, 4294967295, 4294967296]);
    let expected = if d.chance(2) { *d.pick(&[0, 4294967297]) } else { expected };
    let mut held: Vec<u64> = vec![];
    let mut n = expected + d.roll(3) as u64;
    let most = if d.chance(10) { 17 } else { 4 };
    for _ in 0..d.roll(most + 1) {
        if n <= 4294967295 {
            held.push(n);
        }
        n += 1 + d.roll(2) as u64;
    }
    if d.chance(3) && held.len() > 1 {
        held.swap(0, 1);
    }
    let gap = held.first().is_some_and(|&h| h > expected);
    let clock = d.time();
    let start = if gap != d.chance(3) { d.roll(clock as usize + 2) as u32 } else { 0 };
    out.extend(expected.to_le_bytes());
    out.extend(clock.to_le_bytes());
    out.extend(start.to_le_bytes());
    out.push(held.len() as u8);
    for h in held {
        out.extend((h as u32).to_le_bytes());
        out.extend(d.pick(&[0u32, 600]).to_le_bytes());
        out.extend((d.roll(99) as u32).to_le_bytes());
    }
    out
}

fn images(d: &mut Dice, out: &mut Script) {
    let mut image = vec![];
    let mut rows = 0;
    let mut row = d.roll(3);
    while row < 34 && (d.chance(60) || rows == 0) && !d.chance(5) {
        let key = if d.chance(3) { 0 } else { rows };
        image.extend(record(d, row, key));
        rows += 1;
        row += if d.chance(3) { 0 } else { 1 + d.roll(8) };
    }
    image.extend([0x53, 0x45, if d.chance(3) { d.roll(33) as u8 } else { rows as u8 }]);
    if d.chance(15) {
        let at = d.roll(image.len());
        match d.roll(4) {
            0 => image.truncate(at),
            1 => image.push(d.roll(256) as u8),
            2 => drop(image.remove(at)),
            _ => image[at] ^= 1 << d.roll(8),
        }
    }
    out.say(&["load", &escape(&image)]);
    let room = match d.roll(4) {
        0 => image.len(),
        1 => image.len().saturating_sub(1),
        _ => 16384,
    };
    out.say(&["save", &room.min(16384).to_string()]);
    for _ in 0..d.roll(4) {
        let s = format!("s{}", d.roll(4));
        let time = d.time().to_string();
        match d.roll(3) {
            0 => out.say(&["take", "G0ORIG", &s, &time]),
            1 => out.say(&["offer", "G0ORIG", &s, &d.roll(20).to_string(), "600", "7", &time]),
            _ => out.say(&["force", "G0ORIG", &s, &time]),
        };
    }
}

fn fragments(d: &mut Dice, out: &mut Script) {
    let few = d.chance(85);
    let o = match d.roll(4) {
        0 => "~".into(),
        1 if d.chance(10) => escape(&callsign(d)),
        _ => "G0ORIG".into(),
    };
    let mid = if few { d.pick(&["1234567", "abcdef0"]) } else { d.pick(&["0000000", "fffffff", "7e1f3a2"]) }.to_string();
    let time = d.time().to_string();
    match d.roll(32) {
        0 if d.chance(20) => {
            let len = d.pick(&["65535", "1", "0"]).to_string();
            out.say(&["store", &len])
        }
        1 => out.say(&["sweep", if d.chance(50) { "4294967295" } else { &time }]),
        2..=8 => {
            let room = d.pick(&["16384", "16384", "100", "0"]).to_string();
            out.say(&["collect", &o, &mid, &room])
        }
        9 => {
            let at = d.roll(65000);
            out.say(&["peek", "store", &at.to_string(), &(1 + d.roll(500)).to_string()])
        }
        10..=12 => out.say(&["store", "65536"]),
        _ => {
            let m = if d.chance(90) { if mid.starts_with('1') { 2 } else { 3 } } else { *d.pick(&[2, 16, 17, 1, 0]) };
            let n = if d.chance(90) { 1 + d.roll(m.max(1)) } else { d.roll(m + 2) };
            let len = if d.chance(15) { d.length(1024) } else { d.roll(12) };
            let b = escape(&d.bytes(len));
            out.say(&["fragment", &o, &mid, &n.to_string(), &m.to_string(), &time, &b])
        }
    };
}

fn grammar(d: &mut Dice, out: &mut Script) {
    let made: [fn(&mut Dice, &mut Script); 8] = [hashes, text, lines_area, datagrams, sessions, streams, images, fragments];
    let from = out.text.len();
    d.pick(&made)(d, out);
    if d.chance(50) {
        let at = from + d.roll(out.text.len() - from);
        match d.roll(5) {
            0 => out.text.insert(at, b' '),
            1 => out.text[at] = d.roll(256) as u8,
            2 => drop(out.text.remove(at)),
            3 => out.text.insert(at, b'%'),
            _ => out.text.insert(at, b'\n'),
        }
    }
    if d.chance(2) {
        let n = 49980 + d.roll(40);
        out.text.extend(*d.pick(&[&b"sha1 "[..], b"# ", b" "]));
        out.text.extend(std::iter::repeat(b'a').take(n));
        out.text.push(b'\n');
    }
}
