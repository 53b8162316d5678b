//! Document 01, "Names and fields": what a text must be to be a callsign, a destination, a stream id, a header, a number or an id.

pub const RESERVED: [&[u8]; 13] =
    [b"len", b"fmt", b"s", b"clen", b"dst", b"chk", b"ttl", b"src", b"mid", b"frag", b"sid", b"sn", b"gt"];

pub fn is_callsign(s: &[u8]) -> bool {
    let (base, good_tail) = match s.iter().position(|&c| c == b'-') {
        None => (s, true),
        Some(i) => (&s[..i], matches!(&s[i + 1..], [b'1'..=b'9'] | [b'1', b'0'..=b'5'])),
    };
    good_tail && (1..=9).contains(&base.len()) && base.iter().all(u8::is_ascii_alphanumeric)
}

pub fn is_destination(s: &[u8]) -> bool {
    let Some(i) = s.iter().position(|&c| c == b'@') else { return false };
    let app = &s[..i];
    (1..=32).contains(&app.len())
        && app.iter().all(|&c| c.is_ascii_alphanumeric() || b"-_.".contains(&c))
        && is_callsign(&s[i + 1..])
}

/// Well-formed UTF-8 with no byte up to 0x20 and no 0x7F.
fn is_visible(s: &[u8]) -> bool {
    std::str::from_utf8(s).is_ok() && s.iter().all(|&c| c > 0x20 && c != 0x7F)
}

pub fn is_stream_id(s: &[u8]) -> bool {
    (1..=255).contains(&s.len()) && is_visible(s) && !s.contains(&b'=')
}

pub fn is_header_key(s: &[u8]) -> bool {
    (1..=32).contains(&s.len()) && is_visible(s) && !s.contains(&b'=') && !RESERVED.contains(&s)
}

pub fn is_header_value(s: &[u8]) -> bool {
    s.len() <= 128 && is_visible(s)
}

pub fn decimal(s: &[u8], low: u64, high: u64) -> Option<u64> {
    if s.is_empty() || (s.len() > 1 && s[0] == b'0') || !s.iter().all(u8::is_ascii_digit) {
        return None;
    }
    let v: u64 = std::str::from_utf8(s).ok()?.parse().ok()?;
    (low..=high).contains(&v).then_some(v)
}

pub fn signed(s: &[u8]) -> Option<i64> {
    let digits = s.strip_prefix(b"-").unwrap_or(s);
    if digits.is_empty() || (digits.len() > 1 && digits[0] == b'0') || s == b"-0" || !digits.iter().all(u8::is_ascii_digit) {
        return None;
    }
    std::str::from_utf8(s).ok()?.parse().ok()
}

/// Lowercase hexadecimal of exactly `width` digits.
pub fn hex(s: &[u8], width: usize) -> Option<u32> {
    if s.len() != width || !s.iter().all(|c| matches!(c, b'0'..=b'9' | b'a'..=b'f')) {
        return None;
    }
    u32::from_str_radix(std::str::from_utf8(s).ok()?, 16).ok()
}
