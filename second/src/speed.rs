//! Speed and stack: the proved code, linked as a C library, beside the second program, on the same bytes in the same run.
//! `tools/speed` builds and runs it.
#![allow(dead_code)]
mod bench;
mod datagram;
mod fragments;
mod hash;
mod message;
mod names;
mod session;
mod stack;
mod streams;

use std::hint::black_box;
use std::time::Instant;

extern "C" {
    fn job_sha1(bytes: *const u8, len: usize) -> u32;
    fn job_crc(bytes: *const u8, len: usize) -> u16;
    fn job_utf8(bytes: *const u8, len: usize) -> bool;
    fn job_utf8_bytewise(bytes: *const u8, len: usize) -> bool;
    fn job_line(bytes: *const u8, len: usize) -> u32;
    fn job_reline(bytes: *const u8, len: usize, out: *mut u8, room: usize) -> usize;
    fn job_datagram(bytes: *const u8, len: usize) -> usize;
    fn job_redatagram(bytes: *const u8, len: usize, out: *mut u8, room: usize) -> usize;
    fn job_calls(image: *const u8, len: usize, stream: *const u8, stream_len: usize, first: u32, rounds: u32) -> usize;
    fn job_image(bytes: *const u8, len: usize, out: *mut u8, room: usize) -> usize;
    fn job_session(bytes: *const u8, len: usize, size: usize, payload: *mut u8, reply: *mut u8) -> u8;
}

/// One run of a job, in seconds for each time that it is done.
fn once(times: usize, job: &mut impl FnMut() -> usize) -> f64 {
    let start = Instant::now();
    for _ in 0..times {
        black_box(job());
    }
    start.elapsed().as_secs_f64() / times as f64
}

/// The best of thirty-one runs of each of two jobs, one after the other in turn, so that a busy moment of the machine meets both.
fn best(times: usize, mut a: impl FnMut() -> usize, mut b: impl FnMut() -> usize) -> (f64, f64) {
    (0..31).fold((f64::MAX, f64::MAX), |(x, y), _| (x.min(once(times, &mut a)), y.min(once(times, &mut b))))
}

fn print(name: &str, proved: f64, plain: f64) {
    println!("| {name} | {:.2} | {:.2} | {:.2} |", proved * 1e6, plain * 1e6, proved / plain);
}

/// A line of the table. Both sides must come to the same number first.
fn row(name: &str, times: usize, mut proved: impl FnMut() -> usize, mut plain: impl FnMut() -> usize) {
    assert_eq!(proved(), plain(), "{name}: the two sides differ");
    let (p, q) = best(times, proved, plain);
    print(name, p, q);
}

fn filled(n: usize) -> Vec<u8> {
    (0..n).map(|i| (i * 7) as u8).collect()
}

fn hashes() {
    for (name, n, times) in [("SHA-1 of 1 MB", 1 << 20, 5), ("SHA-1 of 4,096 bytes", 4096, 500), ("SHA-1 of 100 bytes", 100, 10000)] {
        let b = filled(n);
        row(name, times, || unsafe { job_sha1(b.as_ptr(), b.len()) as usize }, || (hash::sha1(&b)[0] >> 4) as usize);
    }
    let b = filled(512);
    row("CRC-16 of 512 bytes", 5000, || unsafe { job_crc(b.as_ptr(), b.len()) as usize }, || hash::crc16(&b) as usize);
}

/// The UTF-8 test beside the one that went byte by byte, and beside Rust's own: the texts that are plain ASCII, and those that are not.
fn texts() {
    let ascii: Vec<u8> = (0..1 << 16).map(|i| b' ' + (i % 95) as u8).collect();
    let repeated = |piece: &str| piece.bytes().cycle().take((1 << 16) / piece.len() * piece.len()).collect::<Vec<u8>>();
    for (name, text, times) in [
        ("64 KB of ASCII", ascii.clone(), 20),
        ("a line of 60 bytes of ASCII", ascii[..60].to_vec(), 20000),
        ("64 KB with a character of two bytes every 16 bytes", repeated("fourteen bytesé"), 20),
        ("64 KB of characters of three bytes", repeated("€"), 20),
    ] {
        let stepped = || unsafe { job_utf8(text.as_ptr(), text.len()) as usize };
        let bytewise = || unsafe { job_utf8_bytewise(text.as_ptr(), text.len()) as usize };
        let plain = || std::str::from_utf8(black_box(&text)).is_ok() as usize;
        assert_eq!((stepped(), bytewise(), plain()), (1, 1, 1), "{name}: the three sides differ");
        let (s, b) = best(times, stepped, bytewise);
        let (t, p) = best(times, stepped, plain);
        let s = s.min(t);
        println!("| {name} | {:.1} | {:.1} | {:.1} | {:.2} | {:.2} |", s * 1e9, b * 1e9, p * 1e9, s / b, s / p);
    }
}

/// 512 bytes of an `ihave` line that are short tokens with no value, all of different keys.
fn hostile() -> Vec<u8> {
    let mut line = b"ihave 7e1f3a2".to_vec();
    let letters = || (b'a'..=b'z').chain(b'A'..=b'Z').chain(b'0'..=b'9');
    let keys = letters().map(|a| vec![a]).chain(letters().flat_map(|a| letters().map(move |b| vec![a, b])));
    for key in keys.filter(|k| k != b"s") {
        line.push(b' ');
        line.extend(&key);
        line.push(b'=');
    }
    line.truncate(512);
    line
}

fn lines() {
    let short: &[u8] = b"ihave 7e1f3a2 len=5 fmt=p s=1714982400000 dst=mail@G0RCV";
    let long: &[u8] = b"ihave d2e7f0a len=42 fmt=p s=1714982401000 ttl=600 src=G0ORIG mid=4cf02b1 frag=1/3 sid=chat sn=1 gt=600 priority=high contentType=text/plain dst=chat@G0RCV";
    for (name, l) in [("a short line", short), ("a line with every field", long)] {
        row(&format!("{name}, read"), 2000, || unsafe { job_line(l.as_ptr(), l.len()) as usize }, || message::read_line(l).map_or(0, |m| m.len as usize));
        let mut out = [0u8; 600];
        row(
            &format!("{name}, read and written again"),
            2000,
            || unsafe { job_reline(l.as_ptr(), l.len(), out.as_mut_ptr(), 600) },
            || message::read_line(l).and_then(|m| message::write_line(&m, 600)).map_or(0, |b| b.len()),
        );
    }
    let l = hostile();
    row("512 bytes of short tokens, all keys different", 500, || unsafe { job_line(l.as_ptr(), l.len()) as usize }, || message::read_line(&l).map_or(0, |m| m.len as usize));
}

fn datagrams() {
    let m = message::read_line(b"ihave d2e7f0a len=42 fmt=p s=1714982401000 ttl=600 src=G0ORIG sid=chat sn=1 gt=600 priority=high dst=chat@G0RCV").unwrap();
    for (name, n) in [("a datagram of 20 bytes of payload", 20), ("a datagram of 4,096 bytes of payload", 4096)] {
        let hops = vec![b"M0LTE-9".to_vec(), b"GB7RDG".to_vec()];
        let d = datagram::Datagram { message: m.clone(), link: None, flood: Some(3), route: None, hops: Some(hops), payload_at: 0, payload_len: 0 };
        let b = datagram::write(&d, &filled(n), 16384).unwrap();
        row(&format!("{name}, read"), 2000, || unsafe { job_datagram(b.as_ptr(), b.len()) }, || datagram::read(&b).map_or(0, |d| d.payload_at));
        let mut out = [0u8; 8192];
        row(
            &format!("{name}, read and written again"),
            2000,
            || unsafe { job_redatagram(b.as_ptr(), b.len(), out.as_mut_ptr(), 8192) },
            || datagram::read(&b).and_then(|d| datagram::write(&d, &b[d.payload_at..][..d.payload_len], 8192)).map_or(0, |w| w.len()),
        );
    }
}

/// The image of so many rows that expect 2 and hold 2 to 16, or that expect 1 and hold nothing.
fn image(rows: usize, full: bool) -> Vec<u8> {
    let mut table = streams::Table::new();
    for row in 0..rows {
        let stream = format!("relay{row}").into_bytes();
        let mut offer = |n| {
            let _ = table.offer(b"G0ORIG", &stream, streams::Held { number: n, timeout: 600, slip: n }, 1000);
        };
        (1..if full { 17 } else { 2 }).for_each(&mut offer);
        let _ = table.take(b"G0ORIG", &stream, 1000, false);
    }
    table.save().unwrap()
}

/// A call on a table: what two calls for each of a hundred rounds cost beyond the load of the image, for one call.
fn calls(name: &str, image: &[u8], stream: &[u8], first: u32) {
    let proved = |rounds| unsafe { job_calls(image.as_ptr(), image.len(), stream.as_ptr(), stream.len(), first, rounds) };
    let plain = |rounds| {
        let mut t = streams::Table::new();
        let _ = t.load(image);
        for n in first..first + rounds {
            let _ = t.offer(b"G0ORIG", stream, streams::Held { number: n, timeout: 600, slip: n }, 1000);
            let _ = black_box(t.take(b"G0ORIG", stream, 1000, false));
        }
        t.open_rows()
    };
    assert_eq!(proved(100), plain(100), "{name}: the two sides differ");
    let (p, q) = best(5, || proved(100), || plain(100));
    let (p0, q0) = best(5, || proved(0), || plain(0));
    print(name, (p - p0) / 200.0, (q - q0) / 200.0);
}

fn table() {
    calls("a call on a table of 1 open row", &image(1, false), b"relay0", 2);
    let full = image(32, true);
    calls("a call on a table of 32 full rows", &full, b"relay31", 17);
    let mut out = vec![0u8; 16384];
    let again = || {
        let mut t = streams::Table::new();
        t.load(&full).and_then(|()| t.save()).map_or(0, |b| b.len())
    };
    row("an image of 32 full rows, loaded and saved", 20, || unsafe { job_image(full.as_ptr(), full.len(), out.as_mut_ptr(), 16384) }, again);
}

/// A host's loop: pieces of at most `size` bytes, and what a call left unused is offered again. The first byte of the last reply.
fn converse(mut bytes: &[u8], size: usize, payload: &mut [u8], reply: &mut [u8]) -> usize {
    let mut s = session::Session::open();
    while !bytes.is_empty() {
        let Ok(step) = black_box(s.feed(&bytes[..size.min(bytes.len())], payload, reply)) else { return 0 };
        bytes = &bytes[step.used..];
    }
    usize::from(reply[0])
}

fn sessions() {
    for (name, n, times) in [("a message of 40 bytes in a session", 40, 500), ("a message of 4,096 bytes in a session", 4096, 200)] {
        let payload = filled(n);
        let id = hash::message_id(None, &payload);
        let mut bytes = format!("ihave {id:07x} len={n} fmt=p dst=mail@G0RCV\ndata {id:07x}\n").into_bytes();
        bytes.extend(&payload);
        for (how, size, times) in [("", 8192, times), (", byte by byte", 1, times / 10)] {
            let (mut buffer, mut reply) = ([0u8; 4096], [0u8; 24]);
            let proved = || unsafe { job_session(bytes.as_ptr(), bytes.len(), size, buffer.as_mut_ptr(), reply.as_mut_ptr()).into() };
            let (mut buffer, mut reply) = ([0u8; 4096], [0u8; 24]);
            row(&format!("{name}{how}"), times, proved, || converse(&bytes, size, &mut buffer, &mut reply));
        }
    }
}

fn processor() -> String {
    let info = std::fs::read_to_string("/proc/cpuinfo").unwrap_or_default();
    let name = info.lines().find(|l| l.starts_with("model name")).and_then(|l| l.split_once(": "));
    name.map_or(std::env::consts::ARCH.into(), |(_, n)| n.into())
}

fn main() {
    println!("On {}, in one run, the best of thirty-one:\n", processor());
    println!("| Job | Proved, µs | The second program, µs | Ratio |\n|---|---|---|---|");
    hashes();
    lines();
    datagrams();
    table();
    sessions();
    println!("\n| Text | Proved, ns | Proved, byte by byte as before, ns | from_utf8, ns | Time over that of before | Time over from_utf8's |\n|---|---|---|---|---|---|");
    texts();
    println!("\n| Call | Stack, KB |\n|---|---|");
    stack::print();
}
