//! The bench: one command a line, one answer a line.
use crate::datagram::{self, Datagram};
use crate::fragments::{Groups, STORE};
use crate::hash::{crc16, message_id, sha1};
use crate::message::{read_line, write_line, Message};
use crate::names::{decimal, hex, signed};
use crate::session::{Event, Session, PROMPT};
use crate::streams::{Held, Table};

pub struct Bench {
    pub table: Table,
    groups: Groups,
    session: Option<Session>,
    payload: Vec<u8>,
    reply: Vec<u8>,
    store: Vec<u8>,
    lent: (usize, usize, usize),
}

/// None: a bad command.
type Answer = Option<String>;

fn number(word: &[u8], high: u64) -> Option<usize> {
    decimal(word, 0, high).map(|v| v as usize)
}

fn n32(word: &[u8]) -> Option<u32> {
    decimal(word, 0, 4294967295).map(|v| v as u32)
}

pub fn unescape(word: &[u8], most: usize) -> Option<Vec<u8>> {
    if word == b"-" {
        return Some(vec![]);
    }
    let digit = |b: u8| matches!(b, b'0'..=b'9' | b'A'..=b'F').then(|| (b as char).to_digit(16).unwrap() as u8);
    let (mut out, mut i) = (vec![], 0);
    while i < word.len() {
        match word[i] {
            b'%' => {
                out.push(digit(*word.get(i + 1)?)? << 4 | digit(*word.get(i + 2)?)?);
                i += 3;
            }
            b @ 0x21..=0x7E => {
                out.push(b);
                i += 1;
            }
            _ => return None,
        }
    }
    (!out.is_empty() && out.len() <= most).then_some(out)
}

pub fn escape(bytes: &[u8]) -> String {
    match bytes {
        [] => "-".into(),
        [b @ (b'-' | b'~')] => format!("%{b:02X}"),
        _ => bytes.iter().map(|&b| if (0x21..=0x7E).contains(&b) && b != b'%' { (b as char).to_string() } else { format!("%{b:02X}") }).collect(),
    }
}

fn bytes(word: &[u8]) -> Option<Vec<u8>> {
    unescape(word, 16384)
}

fn salt(word: &[u8]) -> Option<Option<i64>> {
    if word == b"~" { Some(None) } else { signed(word).map(Some) }
}

fn refused<T>(r: Result<T, u8>, say: impl FnOnce(T) -> String) -> Answer {
    Some(match r {
        Ok(v) => say(v),
        Err(n) => format!("refused {n}"),
    })
}

fn shared(m: &Message) -> (String, String) {
    let mut head = String::new();
    if let Some(s) = m.salt {
        head += &format!(" s={s}");
    }
    if let Some(t) = m.ttl {
        head += &format!(" ttl={t}");
    }
    let mut tail = String::new();
    if let Some((mid, n, total)) = m.fragment {
        tail += &format!(" mid={mid:07x} frag={n}/{total}");
    }
    if let Some((sid, sn, gt)) = &m.stream {
        tail += &format!(" sid={} sn={sn} gt={gt}", escape(sid));
    }
    for (k, v) in &m.headers {
        tail += &format!(" +{}={}", escape(k), escape(v));
    }
    (head, tail)
}

fn named(key: &str, value: &Option<Vec<u8>>) -> String {
    value.as_ref().map_or(String::new(), |v| format!(" {key}={}", escape(v)))
}

fn line_fields(m: &Message) -> String {
    let (head, tail) = shared(m);
    format!("id={:07x} len={}{head}{}{tail} dst={}", m.id, m.len, named("src", &m.src), escape(&m.dst))
}

fn hop_list(key: &str, list: &Option<Vec<Vec<u8>>>) -> String {
    match list {
        None => String::new(),
        Some(l) if l.is_empty() => format!(" {key}=-"),
        Some(l) => format!(" {key}={}", l.iter().map(|h| escape(h)).collect::<Vec<_>>().join(",")),
    }
}

fn datagram_fields(d: &Datagram) -> String {
    let m = &d.message;
    let (head, tail) = shared(m);
    let flood = d.flood.map_or(String::new(), |f| format!(" flood={f}"));
    format!(
        "id={:07x}{head} dst={}{}{}{flood}{}{}{tail} payload={}+{}",
        m.id, escape(&m.dst), named("src", &m.src), named("link", &d.link),
        hop_list("route", &d.route), hop_list("hops", &d.hops), d.payload_at, d.payload_len
    )
}

impl Bench {
    pub fn new() -> Bench {
        Bench {
            table: Table::new(),
            groups: Groups::default(),
            session: None,
            payload: vec![0; 4096],
            reply: vec![0; 64],
            store: vec![0; STORE],
            lent: (4096, 64, STORE),
        }
    }
    /// The answer to a script line; None where it has none.
    pub fn line(&mut self, line: &[u8]) -> Option<String> {
        if line.len() > 49999 {
            return Some("bad command".into());
        }
        if line.is_empty() || line[0] == b'#' {
            return None;
        }
        let words: Vec<&[u8]> = line.split(|&c| c == b' ').collect();
        Some(self.command(&words).unwrap_or("bad command".into()))
    }
    fn command(&mut self, words: &[&[u8]]) -> Answer {
        match words {
            [b"sha1", b] => Some(sha1(&bytes(b)?).iter().map(|w| format!("{w:08x}")).collect()),
            [b"crc", b] => Some(format!("{:04x}", crc16(&bytes(b)?))),
            [b"utf8", b] => Some(if std::str::from_utf8(&bytes(b)?).is_ok() { "yes".into() } else { "no".into() }),
            [b"id", s, b] => {
                let (s, b) = (salt(s)?, bytes(b)?);
                Some(if b.len() > 4096 { "refused 4".into() } else { format!("id {:07x}", message_id(s, &b)) })
            }
            [b"line", b] => refused(read_line(&bytes(b)?), |m| format!("ok {}", line_fields(&m))),
            [b"reline", b, room] => {
                let (b, room) = (bytes(b)?, number(room, 16384)?);
                refused(read_line(&b), |m| rewritten(write_line(&m, room)))
            }
            [b"datagram", b] => refused(datagram::read(&bytes(b)?), |d| format!("ok {}", datagram_fields(&d))),
            [b"redatagram", b, room] => {
                let (b, room) = (bytes(b)?, number(room, 16384)?);
                refused(datagram::read(&b), |d| rewritten(datagram::write(&d, &b[d.payload_at..][..d.payload_len], room)))
            }
            [b"lend", p, r] => {
                let (p, r) = (number(p, 4096)?, number(r, 64)?);
                (self.lent.0, self.lent.1) = (p, r);
                Some("lent".into())
            }
            [b"store", len] => {
                self.lent.2 = number(len, STORE as u64)?;
                Some("lent".into())
            }
            [b"fill", n] => {
                let n = number(n, 255)? as u8;
                for b in [&mut self.payload, &mut self.reply, &mut self.store] {
                    b.fill(n);
                }
                Some("filled".into())
            }
            [b"peek", which, at, len] => {
                let buffer = match *which {
                    b"payload" => &self.payload,
                    b"reply" => &self.reply,
                    b"store" => &self.store,
                    _ => return None,
                };
                let (at, len) = (number(at, 4294967295)?, number(len, 16384)?);
                Some(format!("bytes {}", escape(buffer.get(at..at + len)?)))
            }
            [b"open"] => self.open(),
            [b"feed", b] => self.feed(&bytes(b)?),
            [b"offer", o, sid, n, timeout, slip, time] => {
                let held = Held { number: n32(n)?, timeout: n32(timeout)?, slip: n32(slip)? };
                let time = n32(time)?;
                refused(self.table.offer(&unescape(o, 512)?, &unescape(sid, 512)?, held, time), |()| "accepted".into())
            }
            [verb @ (b"take" | b"force"), o, sid, time] => {
                let time = n32(time)?;
                refused(self.table.take(&unescape(o, 512)?, &unescape(sid, 512)?, time, *verb == b"force"), |g| match g {
                    Some((n, slip)) => format!("given {n} {slip}"),
                    None => "nothing".into(),
                })
            }
            [b"close", o, sid] => refused(self.table.close(&unescape(o, 512)?, &unescape(sid, 512)?), |()| "closed".into()),
            [b"save", room] => {
                let room = number(room, 16384)?;
                let saved = self.table.save().and_then(|image| if image.len() > room { Err(5) } else { Ok(image) });
                refused(saved, |image| format!("image {}", escape(&image)))
            }
            [b"load", b] => refused(self.table.load(&bytes(b)?), |()| "loaded".into()),
            [b"fragment", o, mid, n, m, time, b] => {
                let (o, mid) = (originator(o)?, master(mid)?);
                let (n, m, time, b) = (number(n, 65535)? as u16, number(m, 65535)? as u16, n32(time)?, bytes(b)?);
                let store = &mut self.store[..self.lent.2];
                refused(self.groups.add(store, o.as_deref(), mid, n, m, time, &b), |()| "accepted".into())
            }
            [b"collect", o, mid, room] => {
                let (o, mid, room) = (originator(o)?, master(mid)?, number(room, 16384)?);
                let store = &self.store[..self.lent.2];
                refused(self.groups.collect(store, o.as_deref(), mid, room), |b| format!("joined {}", escape(&b)))
            }
            [b"sweep", time] => {
                self.groups.sweep(n32(time)?);
                Some("swept".into())
            }
            _ => None,
        }
    }
    fn open(&mut self) -> Answer {
        if self.lent.1 < 24 {
            return Some("refused 5".into());
        }
        self.session = Some(Session::open());
        self.reply[..PROMPT.len()].copy_from_slice(PROMPT);
        Some(format!("reply {}", escape(PROMPT)))
    }
    fn feed(&mut self, piece: &[u8]) -> Answer {
        let session = self.session.as_mut()?;
        let step = match session.feed(piece, &mut self.payload[..self.lent.0], &mut self.reply[..self.lent.1]) {
            Ok(step) => step,
            Err(n) => return Some(format!("refused {n}")),
        };
        let reply = &self.reply[..step.written];
        let event = match step.event {
            Event::Nothing => "nothing".into(),
            Event::Offer(m) => format!("offer {}", line_fields(&m)),
            Event::Message(m) => {
                let s = m.salt.map_or(String::new(), |s| format!(" s={s}"));
                format!("message id={:07x}{s} len={}", m.id, m.len)
            }
            Event::End(n) => format!("end {n}"),
        };
        Some(format!("used {} {event} reply {}", step.used, escape(reply)))
    }
}

fn master(word: &[u8]) -> Option<u32> {
    hex(&bytes(word)?, 7)
}

fn originator(word: &[u8]) -> Option<Option<Vec<u8>>> {
    if word == b"~" { Some(None) } else { unescape(word, 512).map(Some) }
}

fn rewritten(r: Result<Vec<u8>, u8>) -> String {
    match r {
        Ok(b) => format!("rewritten {}", escape(&b)),
        Err(n) => format!("unwritten {n}"),
    }
}
