//! The fields of a message, and the ihave line: read and written.
use crate::hash::crc16;
use crate::names::*;

#[derive(Clone, Default)]
pub struct Message {
    pub id: u32,
    pub len: u32,
    pub salt: Option<i64>,
    pub ttl: Option<u32>,
    pub src: Option<Vec<u8>>,
    pub fragment: Option<(u32, u16, u16)>,
    pub stream: Option<(Vec<u8>, u32, u32)>,
    pub headers: Vec<(Vec<u8>, Vec<u8>)>,
    pub dst: Vec<u8>,
}

/// The value of the key among the tokens.
fn find<'a>(tokens: &[(&'a [u8], &'a [u8])], key: &[u8]) -> Option<&'a [u8]> {
    tokens.iter().find(|t| t.0 == key).map(|t| t.1)
}

/// What may be absent: absent, or read by `f`; None where it is there and malformed.
fn optional<T>(value: Option<&[u8]>, f: impl Fn(&[u8]) -> Option<T>) -> Option<Option<T>> {
    match value {
        None => Some(None),
        Some(v) => f(v).map(Some),
    }
}

pub fn read_line(s: &[u8]) -> Result<Message, u8> {
    let (message, format, chk) = parse(s).ok_or(1)?;
    if chk.is_some_and(|c| u32::from(crc16(&s[..s.len() - 9])) != c) {
        return Err(2);
    }
    if format == b"d" {
        return Err(3);
    }
    if message.len > 4096 {
        return Err(4);
    }
    Ok(message)
}

fn parse(s: &[u8]) -> Option<(Message, &[u8], Option<u32>)> {
    if s.len() > 512 || std::str::from_utf8(s).is_err() || s.iter().any(|&c| c < 0x20 || c == 0x7F) {
        return None;
    }
    let mut words = s.split(|&c| c == b' ');
    if words.next()? != b"ihave" {
        return None;
    }
    let id = hex(words.next()?, 7)?;
    let mut tokens: Vec<(&[u8], &[u8])> = vec![];
    for word in words {
        let cut = word.iter().position(|&c| c == b'=')?;
        tokens.push((&word[..cut], &word[cut + 1..]));
    }
    for (i, t) in tokens.iter().enumerate() {
        if tokens[..i].iter().any(|u| u.0 == t.0) || (t.0 == b"chk" && i + 1 != tokens.len()) {
            return None;
        }
    }
    let get = |key: &[u8]| find(&tokens, key);
    let whole = |high: u64| move |v: &[u8]| decimal(v, 0, high);
    let len = decimal(get(b"len")?, 0, 2147483647)? as u32;
    let format = get(b"fmt")?;
    if format != b"p" && format != b"d" {
        return None;
    }
    let clen = optional(get(b"clen"), whole(2147483647))?;
    if clen.is_some() != (format == b"d") {
        return None;
    }
    let dst = get(b"dst").filter(|d| is_destination(d))?.to_vec();
    let salt = optional(get(b"s"), signed)?;
    let ttl = optional(get(b"ttl"), |v| decimal(v, 1, 2147483647))?.map(|v| v as u32);
    let src = optional(get(b"src"), |v| is_callsign(v).then(|| v.to_vec()))?;
    let fragment = match (get(b"mid"), get(b"frag")) {
        (None, None) => None,
        (Some(mid), Some(frag)) => {
            let cut = frag.iter().position(|&c| c == b'/')?;
            let m = decimal(&frag[cut + 1..], 2, 65535)?;
            let n = decimal(&frag[..cut], 1, m)?;
            Some((hex(mid, 7)?, n as u16, m as u16))
        }
        _ => return None,
    };
    let stream = match (get(b"sid"), get(b"sn"), get(b"gt")) {
        (None, None, None) => None,
        (Some(sid), Some(sn), Some(gt)) if is_stream_id(sid) => {
            Some((sid.to_vec(), decimal(sn, 0, 4294967295)? as u32, decimal(gt, 0, 4294967295)? as u32))
        }
        _ => return None,
    };
    let chk = optional(get(b"chk"), |v| hex(v, 4))?;
    let headers: Vec<(Vec<u8>, Vec<u8>)> =
        tokens.iter().filter(|t| !RESERVED.contains(&t.0)).map(|t| (t.0.to_vec(), t.1.to_vec())).collect();
    if headers.len() > 8 || !headers.iter().all(|(k, v)| is_header_key(k) && is_header_value(v)) {
        return None;
    }
    Some((Message { id, len, salt, ttl, src, fragment, stream, headers, dst }, format, chk))
}

/// The line with its LF, for a message that the reader gave.
pub fn write_line(m: &Message, room: usize) -> Result<Vec<u8>, u8> {
    let mut out = format!("ihave {:07x} len={} fmt=p", m.id, m.len).into_bytes();
    let mut put = |key: &[u8], value: &[u8]| {
        out.push(b' ');
        out.extend_from_slice(key);
        out.push(b'=');
        out.extend_from_slice(value);
    };
    if let Some(s) = m.salt {
        put(b"s", s.to_string().as_bytes());
    }
    if let Some(t) = m.ttl {
        put(b"ttl", t.to_string().as_bytes());
    }
    if let Some(c) = &m.src {
        put(b"src", c);
    }
    if let Some((mid, n, total)) = m.fragment {
        put(b"mid", format!("{mid:07x}").as_bytes());
        put(b"frag", format!("{n}/{total}").as_bytes());
    }
    if let Some((sid, sn, gt)) = &m.stream {
        put(b"sid", sid);
        put(b"sn", sn.to_string().as_bytes());
        put(b"gt", gt.to_string().as_bytes());
    }
    for (k, v) in &m.headers {
        put(k, v);
    }
    put(b"dst", &m.dst);
    let chk = crc16(&out);
    out.extend_from_slice(format!(" chk={chk:04x}").as_bytes());
    if out.len() > 512 {
        return Err(1);
    }
    out.push(b'\n');
    if out.len() > room {
        return Err(5);
    }
    Ok(out)
}
