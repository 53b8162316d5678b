//! The receiving session as plain data: what each call uses, replies, reports and leaves behind. Every call tests the session's rules first, by
//! reference.
use crate::hash::Sha1;
use crate::message::{read_line, Message};

pub const PROMPT: &[u8] = b"DAPPSv1>\n";

/// The numbers of an offer.
#[derive(Clone, Copy, Default)]
pub struct Terms {
    pub id: u32,
    pub salt: Option<i64>,
    pub len: u32,
}

pub enum Event {
    Nothing,
    Offer(Message),
    Message(Terms),
    End(u8),
}

/// What a call did: the bytes used, what happened, the bytes of the reply.
pub struct Step {
    pub used: usize,
    pub event: Event,
    pub written: usize,
}

#[derive(Clone, Copy, PartialEq)]
enum Mode {
    Command,
    Data,
    Payload,
    Closed,
}

/// The line so far is at the front of an array, the rest of which is zero; so many bytes of the payload have come, and their hash is running.
pub struct Session {
    mode: Mode,
    line: [u8; 512],
    line_len: usize,
    terms: Terms,
    got: usize,
    hash: Sha1,
}

fn is_verb(line: &[u8], verb: &[u8]) -> bool {
    line == verb || line.strip_prefix(verb).is_some_and(|rest| rest.first() == Some(&b' '))
}

/// `error T`, T being the token after `ihave ` if it has 1 to 7 visible ASCII bytes; else `error`.
fn error_line(line: &[u8], reply: &mut [u8]) -> usize {
    let rest = line.strip_prefix(b"ihave ").unwrap_or(b"");
    let token = rest.split(|&c| c == b' ').next().unwrap_or(b"");
    if (1..=7).contains(&token.len()) && token.iter().all(|c| (0x21..=0x7E).contains(c)) {
        say(reply, &[b"error ", token, b"\n"])
    } else {
        say(reply, &[b"error\n"])
    }
}

/// The parts one behind the other at the buffer's front.
fn say(reply: &mut [u8], parts: &[&[u8]]) -> usize {
    let mut at = 0;
    for part in parts {
        reply[at..at + part.len()].copy_from_slice(part);
        at += part.len();
    }
    at
}

fn digits(id: u32) -> [u8; 7] {
    std::array::from_fn(|i| b"0123456789abcdef"[(id >> (24 - 4 * i)) as usize % 16])
}

impl Session {
    fn in_mode(mode: Mode, terms: Terms) -> Session {
        Session { mode, line: [0; 512], line_len: 0, terms, got: 0, hash: Sha1::new() }
    }
    pub fn open() -> Session {
        Session::in_mode(Mode::Command, Terms::default())
    }
    fn keeps_rules(&self) -> bool {
        let (longest, payload) = match self.mode {
            Mode::Command | Mode::Data => (512, self.got == 0),
            Mode::Payload => (0, self.got < self.terms.len as usize),
            Mode::Closed => (0, self.got == 0),
        };
        self.line_len <= longest
            && self.line[self.line_len..].iter().fold(0, |all, b| all | b) == 0
            && self.terms.id < 1 << 28
            && self.terms.len <= 4096
            && payload
    }
    /// One call, or the number of its refusal. Payload bytes go to their places in the buffer, the reply to the front of its own.
    pub fn feed(&mut self, piece: &[u8], payload: &mut [u8], reply: &mut [u8]) -> Result<Step, u8> {
        if !self.keeps_rules() {
            return Err(40);
        }
        if self.mode == Mode::Closed {
            return Err(22);
        }
        if payload.len() < 4096 || reply.len() < 24 {
            return Err(5);
        }
        let (used, (event, written)) = if self.mode == Mode::Payload { self.receive(piece, payload, reply) } else { self.listen(piece, reply) };
        Ok(Step { used, event, written })
    }
    fn receive(&mut self, piece: &[u8], payload: &mut [u8], reply: &mut [u8]) -> (usize, (Event, usize)) {
        let left = self.terms.len as usize - self.got;
        let part = &piece[..left.min(piece.len())];
        payload[self.got..self.got + part.len()].copy_from_slice(part);
        self.hash.update(part);
        self.got += part.len();
        (part.len(), if part.len() < left { (Event::Nothing, 0) } else { self.judge(reply) })
    }
    fn listen(&mut self, piece: &[u8], reply: &mut [u8]) -> (usize, (Event, usize)) {
        let part = piece.split(|&b| b == b'\n').next().unwrap_or(b"");
        let room = 512 - self.line_len;
        if part.len() > room {
            return (room + 1, self.end(1, 0));
        }
        self.line[self.line_len..self.line_len + part.len()].copy_from_slice(part);
        self.line_len += part.len();
        if part.len() == piece.len() {
            return (part.len(), (Event::Nothing, 0));
        }
        (part.len() + 1, self.line(reply))
    }
    fn end(&mut self, reason: u8, written: usize) -> (Event, usize) {
        *self = Session::in_mode(Mode::Closed, Terms::default());
        (Event::End(reason), written)
    }
    /// What the next line is waited for with.
    fn goes_on(&mut self, event: Event, written: usize) -> (Event, usize) {
        *self = Session::open();
        (event, written)
    }
    fn judge(&mut self, reply: &mut [u8]) -> (Event, usize) {
        let terms = self.terms;
        let id = &digits(terms.id);
        if self.hash.finish()[0] >> 4 == terms.id {
            let written = say(reply, &[b"ack ", id, b"\n", PROMPT]);
            self.goes_on(Event::Message(terms), written)
        } else {
            let written = say(reply, &[b"bad ", id, b"\n", PROMPT]);
            self.goes_on(Event::Nothing, written)
        }
    }
    /// The line after `send`.
    fn data(&mut self, line: &[u8], reply: &mut [u8]) -> (Event, usize) {
        let terms = self.terms;
        if line.strip_prefix(b"data ") != Some(&digits(terms.id)) {
            return self.end(1, 0);
        }
        *self = Session::in_mode(Mode::Payload, terms);
        if let Some(salt) = terms.salt {
            self.hash.update(&salt.to_le_bytes());
        }
        if terms.len == 0 { self.judge(reply) } else { (Event::Nothing, 0) }
    }
    fn line(&mut self, reply: &mut [u8]) -> (Event, usize) {
        let bytes = self.line;
        let line = &bytes[..self.line_len];
        if self.mode == Mode::Data {
            return self.data(line, reply);
        }
        if is_verb(line, b"ihave") {
            return match read_line(line) {
                Ok(m) => {
                    *self = Session::in_mode(Mode::Data, Terms { id: m.id, salt: m.salt, len: m.len });
                    let written = say(reply, &[b"send ", &digits(m.id), b"\n"]);
                    (Event::Offer(m), written)
                }
                Err(reason) => self.end(reason, error_line(line, reply)),
            };
        }
        if is_verb(line, b"data") {
            return self.end(1, say(reply, &[b"error\n"]));
        }
        match line.to_ascii_lowercase().as_slice() {
            b"quit" | b"q" | b"bye" | b"exit" => self.end(0, say(reply, &[b"bye\n"])),
            b"help" | b"info" => self.goes_on(Event::Nothing, say(reply, &[b"This is DAPPS.\n", PROMPT])),
            _ => self.goes_on(Event::Nothing, say(reply, &[b"eh?\n", PROMPT])),
        }
    }
}
