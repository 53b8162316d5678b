//! The datagram, version 7: source 000's layout, as document 01 narrows it.
use crate::message::Message;
use crate::names::*;

pub struct Datagram {
    pub message: Message,
    pub link: Option<Vec<u8>>,
    pub flood: Option<u8>,
    pub route: Option<Vec<Vec<u8>>>,
    pub hops: Option<Vec<Vec<u8>>>,
    pub payload_at: usize,
    pub payload_len: usize,
}

/// A cursor over the bytes that are left.
struct Left<'a>(&'a [u8]);

impl<'a> Left<'a> {
    fn take(&mut self, n: usize) -> Option<&'a [u8]> {
        let (front, rest) = self.0.split_at_checked(n)?;
        self.0 = rest;
        Some(front)
    }
    fn number(&mut self, width: usize) -> Option<u64> {
        Some(self.take(width)?.iter().rev().fold(0, |v, &b| v << 8 | u64::from(b)))
    }
    /// A text behind its length in `width` bytes.
    fn text(&mut self, width: usize, good: fn(&[u8]) -> bool) -> Option<Vec<u8>> {
        let n = self.number(width)? as usize;
        let t = self.take(n)?;
        good(t).then(|| t.to_vec())
    }
    fn hops(&mut self) -> Option<Vec<Vec<u8>>> {
        let n = self.number(1)?;
        if n > 16 {
            return None;
        }
        (0..n).map(|_| self.text(1, is_callsign)).collect()
    }
}

/// What is there where its flag is set.
macro_rules! flagged {
    ($flags:expr, $bit:expr, $read:expr) => {
        if $flags >> $bit & 1 == 1 { Some($read?) } else { None }
    };
}

pub fn read(d: &[u8]) -> Result<Datagram, u8> {
    if d.first() != Some(&7) {
        return Err(6);
    }
    let mut left = Left(&d[1..]);
    let mut out = fields(&mut left).ok_or(7)?;
    let len = left.number(4).ok_or(7)?;
    if len > 4096 {
        return Err(4);
    }
    if left.0.len() as u64 != len {
        return Err(7);
    }
    out.payload_at = d.len() - left.0.len();
    out.payload_len = left.0.len();
    Ok(out)
}

fn fields(left: &mut Left) -> Option<Datagram> {
    let f = left.number(2)?;
    if f >> 10 != 0 {
        return None;
    }
    let mut m = Message { id: hex(left.take(7)?, 7)?, ..Message::default() };
    m.salt = flagged!(f, 0, left.number(8)).map(|v| v as i64);
    m.ttl = flagged!(f, 1, left.number(4).filter(|v| (1..=2147483647).contains(v))).map(|v| v as u32);
    m.dst = left.text(2, is_destination)?;
    m.src = flagged!(f, 3, left.text(2, is_callsign));
    let link = flagged!(f, 4, left.text(2, is_callsign));
    let flood = flagged!(f, 5, left.number(1)).map(|v| v as u8);
    let route = flagged!(f, 6, left.hops());
    let hops = flagged!(f, 7, left.hops());
    m.fragment = flagged!(f, 8, fragment(left));
    m.stream = flagged!(f, 9, stream(left));
    m.headers = flagged!(f, 2, headers(left)).unwrap_or_default();
    Some(Datagram { message: m, link, flood, route, hops, payload_at: 0, payload_len: 0 })
}

fn fragment(left: &mut Left) -> Option<(u32, u16, u16)> {
    let mid = hex(left.take(7)?, 7)?;
    let n = left.number(2)? as u16;
    let m = left.number(2)? as u16;
    (m >= 2 && 1 <= n && n <= m).then_some((mid, n, m))
}

fn stream(left: &mut Left) -> Option<(Vec<u8>, u32, u32)> {
    Some((left.text(1, is_stream_id)?, left.number(4)? as u32, left.number(4)? as u32))
}

fn headers(left: &mut Left) -> Option<Vec<(Vec<u8>, Vec<u8>)>> {
    let n = left.number(2)?;
    if !(1..=8).contains(&n) {
        return None;
    }
    let mut out: Vec<(Vec<u8>, Vec<u8>)> = vec![];
    for _ in 0..n {
        let h = (left.text(2, is_header_key)?, left.text(2, is_header_value)?);
        if out.iter().any(|o| o.0 == h.0) {
            return None;
        }
        out.push(h);
    }
    Some(out)
}

pub fn write(d: &Datagram, payload: &[u8], room: usize) -> Result<Vec<u8>, u8> {
    let m = &d.message;
    let present = [
        m.salt.is_some(), m.ttl.is_some(), !m.headers.is_empty(), m.src.is_some(), d.link.is_some(), d.flood.is_some(),
        d.route.is_some(), d.hops.is_some(), m.fragment.is_some(), m.stream.is_some(),
    ];
    let flags = present.iter().enumerate().fold(0u16, |f, (i, &p)| f | u16::from(p) << i);
    let mut out = vec![7];
    out.extend(flags.to_le_bytes());
    out.extend(format!("{:07x}", m.id).into_bytes());
    out.extend(m.salt.iter().flat_map(|s| s.to_le_bytes()));
    out.extend(m.ttl.iter().flat_map(|t| t.to_le_bytes()));
    for text in [Some(&m.dst), m.src.as_ref(), d.link.as_ref()].into_iter().flatten() {
        out.extend((text.len() as u16).to_le_bytes());
        out.extend(text);
    }
    out.extend(d.flood);
    for list in [&d.route, &d.hops].into_iter().flatten() {
        out.push(list.len() as u8);
        for hop in list {
            out.push(hop.len() as u8);
            out.extend(hop);
        }
    }
    if let Some((mid, n, total)) = m.fragment {
        out.extend(format!("{mid:07x}").into_bytes());
        out.extend(n.to_le_bytes());
        out.extend(total.to_le_bytes());
    }
    if let Some((sid, sn, gt)) = &m.stream {
        out.push(sid.len() as u8);
        out.extend(sid);
        out.extend(sn.to_le_bytes());
        out.extend(gt.to_le_bytes());
    }
    if !m.headers.is_empty() {
        out.extend((m.headers.len() as u16).to_le_bytes());
        for text in m.headers.iter().flat_map(|(k, v)| [k, v]) {
            out.extend((text.len() as u16).to_le_bytes());
            out.extend(text);
        }
    }
    out.extend((payload.len() as u32).to_le_bytes());
    out.extend(payload);
    if out.len() > room { Err(5) } else { Ok(out) }
}
