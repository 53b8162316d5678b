//! The stack that each of the host's calls needs: the call is made on a thread whose stack is painted first, and what is not painted any
//! more afterwards was used. A figure has the frame of whoever makes the call in it, with each state that goes in and comes out by value:
//! a table takes 16 KB, so two calls on a table after one another show some 32 KB that are the caller's.
use std::hint::black_box;

extern "C" {
    fn job_id(bytes: *const u8, len: usize) -> u32;
    fn job_crc(bytes: *const u8, len: usize) -> u16;
    fn job_utf8(bytes: *const u8, len: usize) -> bool;
    fn job_line(bytes: *const u8, len: usize) -> u32;
    fn job_reline(bytes: *const u8, len: usize, out: *mut u8, room: usize) -> usize;
    fn job_datagram(bytes: *const u8, len: usize) -> usize;
    fn job_redatagram(bytes: *const u8, len: usize, out: *mut u8, room: usize) -> usize;
    fn job_session(bytes: *const u8, len: usize, size: usize, payload: *mut u8, reply: *mut u8) -> u8;
    fn stack_new() -> usize;
    fn stack_offer() -> usize;
    fn stack_take() -> usize;
    fn stack_force() -> usize;
    fn stack_close() -> usize;
    fn stack_row_at() -> usize;
    fn stack_save(out: *mut u8, room: usize) -> usize;
    fn stack_load(image: *const u8, len: usize) -> usize;
    fn stack_open(reply: *mut u8, room: usize) -> usize;
    fn stack_add(store: *mut u8, len: usize) -> usize;
    fn stack_collect(store: *mut u8, len: usize, out: *mut u8, room: usize) -> usize;
    fn stack_sweep() -> usize;
}

const STACK: usize = 4 << 20;
const PAINTED: usize = 3 << 20;
/// What lies this near to the painter's own frame is not painted.
const NEAR: usize = 1024;
const PAINT: u8 = 0xA5;

#[inline(never)]
fn paint(top: usize) {
    for at in top - PAINTED..top - NEAR {
        unsafe { (at as *mut u8).write_volatile(PAINT) };
    }
}

#[inline(never)]
fn lowest_touched(top: usize) -> usize {
    (top - PAINTED..top - NEAR).find(|&at| unsafe { (at as *const u8).read_volatile() } != PAINT).unwrap_or(top - NEAR)
}

/// The bytes of stack below its caller that a job touches.
#[inline(never)]
fn used(job: &mut dyn FnMut()) -> usize {
    let here = 0u8;
    let top = black_box(&here) as *const u8 as usize;
    paint(top);
    job();
    top - lowest_touched(top)
}

fn measure(name: &str, mut job: impl FnMut() + Send) {
    let bytes = std::thread::scope(|s| std::thread::Builder::new().stack_size(STACK).spawn_scoped(s, || used(&mut job)).unwrap().join().unwrap());
    println!("| {name} | {:.1} |", bytes as f64 / 1024.0);
}

pub fn print() {
    let line: &[u8] = b"ihave d2e7f0a len=42 fmt=p s=1714982401000 ttl=600 src=G0ORIG mid=4cf02b1 frag=1/3 sid=chat sn=1 gt=600 priority=high dst=chat@G0RCV";
    let datagram = crate::datagram::Datagram { message: crate::message::read_line(line).unwrap(), link: None, flood: Some(3), route: None, hops: None, payload_at: 0, payload_len: 0 };
    let datagram = crate::datagram::write(&datagram, b"hello", 16384).unwrap();
    let image = crate::image(32, true);
    let peer = [b"help\nihave f628422 len=5 fmt=p s=1714982400000 dst=mail@G0RCV\ndata f628422\nhello".as_slice(), b"quit\n"].concat();
    let (mut out, mut store, mut payload, mut reply) = (vec![0u8; 16384], vec![0u8; 65536], vec![0u8; 4096], vec![0u8; 24]);
    unsafe {
        measure("message_id", || { black_box(job_id(line.as_ptr(), line.len())); });
        measure("crc", || { black_box(job_crc(line.as_ptr(), line.len())); });
        measure("well_formed", || { black_box(job_utf8(line.as_ptr(), line.len())); });
        measure("read_line", || { black_box(job_line(line.as_ptr(), line.len())); });
        measure("read_line, then write_line", || { black_box(job_reline(line.as_ptr(), line.len(), out.as_mut_ptr(), 16384)); });
        measure("read_datagram", || { black_box(job_datagram(datagram.as_ptr(), datagram.len())); });
        measure("read_datagram, then write_datagram", || { black_box(job_redatagram(datagram.as_ptr(), datagram.len(), out.as_mut_ptr(), 16384)); });
        measure("open_session", || { black_box(stack_open(reply.as_mut_ptr(), 24)); });
        measure("feed", || { black_box(job_session(peer.as_ptr(), peer.len(), 1, payload.as_mut_ptr(), reply.as_mut_ptr())); });
        measure("Table::new, open_rows", || { black_box(stack_new()); });
        measure("offer", || { black_box(stack_offer()); });
        measure("offer, then take", || { black_box(stack_take()); });
        measure("offer, then force", || { black_box(stack_force()); });
        measure("offer, take, then close", || { black_box(stack_close()); });
        measure("offer, then row_at", || { black_box(stack_row_at()); });
        measure("save", || { black_box(stack_save(out.as_mut_ptr(), 16384)); });
        measure("load", || { black_box(stack_load(image.as_ptr(), image.len())); });
        measure("add_fragment", || { black_box(stack_add(store.as_mut_ptr(), 65536)); });
        measure("add_fragment twice, then collect_group", || { black_box(stack_collect(store.as_mut_ptr(), 65536, out.as_mut_ptr(), 16384)); });
        measure("sweep_groups", || { black_box(stack_sweep()); });
    }
}
