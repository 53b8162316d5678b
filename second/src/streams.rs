//! Ordered streams: the table of 32 rows as plain data, and its image. Every call tests the table's rules first, by reference.
use crate::names::{is_callsign, is_stream_id};

#[derive(Clone, Copy, PartialEq)]
pub struct Held {
    pub number: u32,
    pub timeout: u32,
    pub slip: u32,
}

const NO_HELD: Held = Held { number: 0, timeout: 0, slip: 0 };

/// A text at the front of an array, the rest of which is zero.
#[derive(Clone, Copy, PartialEq)]
pub struct Text<const N: usize> {
    len: usize,
    bytes: [u8; N],
}

impl<const N: usize> Text<N> {
    const NONE: Text<N> = Text { len: 0, bytes: [0; N] };
    fn of(s: &[u8]) -> Option<Text<N>> {
        let mut text = Text::NONE;
        text.bytes.get_mut(..s.len())?.copy_from_slice(s);
        text.len = s.len();
        Some(text)
    }
    fn get(&self) -> &[u8] {
        &self.bytes[..self.len]
    }
    fn keeps_rules(&self, rule: impl Fn(&[u8]) -> bool) -> bool {
        self.len <= N && self.bytes[self.len..].iter().fold(0, |all, b| all | b) == 0 && rule(self.get())
    }
}

#[derive(Clone, Copy, PartialEq)]
pub struct Row {
    used: bool,
    originator: Text<12>,
    stream: Text<255>,
    pub expected: u64,
    clock: u32,
    gap_start: u32,
    count: usize,
    held: [Held; 16],
}

/// A free row: all zero.
const FREE: Row = Row {
    used: false,
    originator: Text::NONE,
    stream: Text::NONE,
    expected: 0,
    clock: 0,
    gap_start: 0,
    count: 0,
    held: [NO_HELD; 16],
};

impl Row {
    /// The row of a key that nothing was offered under yet.
    fn new(originator: &[u8], stream: &[u8]) -> Option<Row> {
        Some(Row { used: true, originator: Text::of(originator)?, stream: Text::of(stream)?, expected: 1, ..FREE })
    }
    fn held(&self) -> &[Held] {
        &self.held[..self.count]
    }
    fn has_key(&self, o: &[u8], s: &[u8]) -> bool {
        self.used && self.originator.get() == o && self.stream.get() == s
    }
    fn gap_open(&self) -> bool {
        self.held().first().is_some_and(|h| u64::from(h.number) > self.expected)
    }
    fn above(&self) -> usize {
        self.held().iter().filter(|h| u64::from(h.number) > self.expected).count()
    }
    fn offer(&mut self, held: Held, time: u32) -> Result<(), u8> {
        let n = u64::from(held.number);
        if n < self.expected {
            return Err(10);
        }
        if self.held().iter().any(|h| h.number == held.number) {
            return Err(11);
        }
        if n > self.expected && self.above() >= 15 {
            return Err(12);
        }
        let was_open = self.gap_open();
        let at = self.held().partition_point(|h| h.number < held.number);
        self.held.copy_within(at..self.count, at + 1);
        self.held[at] = held;
        self.count += 1;
        self.clock = self.clock.max(time);
        self.gap_start = match (was_open, self.gap_open()) {
            (_, false) => 0,
            (true, true) => self.gap_start,
            (false, true) => self.clock,
        };
        Ok(())
    }
    fn due(&self) -> bool {
        self.held().first().is_some_and(|h| {
            u64::from(h.number) == self.expected || (h.timeout > 0 && self.clock - self.gap_start >= h.timeout)
        })
    }
    fn give(&mut self) -> Option<(u32, u32)> {
        let h = *self.held().first()?;
        self.held.copy_within(1.., 0);
        self.held[15] = NO_HELD;
        self.count -= 1;
        self.expected = u64::from(h.number) + 1;
        self.gap_start = if self.gap_open() { self.clock } else { 0 };
        Some((h.number, h.slip))
    }
    fn take(&mut self, time: u32, forced: bool) -> Option<(u32, u32)> {
        self.clock = self.clock.max(time);
        if forced || self.due() { self.give() } else { None }
    }
    fn keeps_rules(&self) -> bool {
        if !self.used {
            return *self == FREE;
        }
        self.count <= 16
            && self.held[self.count..].iter().all(|h| *h == NO_HELD)
            && self.originator.keeps_rules(is_callsign)
            && self.stream.keeps_rules(is_stream_id)
            && (1..=1 << 32).contains(&self.expected)
            && self.held().windows(2).all(|w| w[0].number < w[1].number)
            && self.held().first().is_none_or(|h| u64::from(h.number) >= self.expected)
            && self.above() <= 15
            && self.gap_start <= self.clock
            && (self.gap_open() || self.gap_start == 0)
    }
}

#[derive(Clone)]
pub struct Table([Row; 32]);

fn key_refusal(o: &[u8], s: &[u8]) -> Result<(), u8> {
    if !is_callsign(o) {
        return Err(8);
    }
    if !is_stream_id(s) {
        return Err(9);
    }
    Ok(())
}

impl Table {
    pub fn new() -> Table {
        Table([FREE; 32])
    }
    /// Every row keeps its rules, and no two have one key.
    fn keeps_rules(&self) -> bool {
        self.0.iter().all(Row::keeps_rules)
            && (1..32).all(|i| !self.0[i].used || !self.0[..i].iter().any(|r| r.has_key(self.0[i].originator.get(), self.0[i].stream.get())))
    }
    fn checked(&self, o: &[u8], s: &[u8]) -> Result<(), u8> {
        if !self.keeps_rules() {
            return Err(40);
        }
        key_refusal(o, s)
    }
    fn find(&self, o: &[u8], s: &[u8]) -> Option<usize> {
        self.0.iter().position(|r| r.has_key(o, s))
    }
    pub fn open_rows(&self) -> usize {
        self.0.iter().filter(|r| r.used).count()
    }
    pub fn expected(&self, o: &[u8], s: &[u8]) -> u64 {
        self.find(o, s).map_or(1, |i| self.0[i].expected)
    }
    pub fn offer(&mut self, o: &[u8], s: &[u8], held: Held, time: u32) -> Result<(), u8> {
        self.checked(o, s)?;
        if let Some(i) = self.find(o, s) {
            return self.0[i].offer(held, time);
        }
        let mut row = Row::new(o, s).ok_or(9)?;
        row.offer(held, time)?;
        let free = self.0.iter().position(|r| !r.used).ok_or(13)?;
        self.0[free] = row;
        Ok(())
    }
    pub fn take(&mut self, o: &[u8], s: &[u8], time: u32, forced: bool) -> Result<Option<(u32, u32)>, u8> {
        self.checked(o, s)?;
        let i = self.find(o, s).ok_or(14)?;
        Ok(self.0[i].take(time, forced))
    }
    pub fn close(&mut self, o: &[u8], s: &[u8]) -> Result<(), u8> {
        self.checked(o, s)?;
        let i = self.find(o, s).ok_or(14)?;
        if self.0[i].count > 0 {
            return Err(15);
        }
        self.0[i] = FREE;
        Ok(())
    }
    pub fn save(&self) -> Result<Vec<u8>, u8> {
        if !self.keeps_rules() {
            return Err(40);
        }
        let mut out = vec![];
        for (i, r) in self.0.iter().enumerate().filter(|(_, r)| r.used) {
            out.extend([0x53, 0x54, i as u8, r.originator.len as u8]);
            out.extend(r.originator.get());
            out.push(r.stream.len as u8);
            out.extend(r.stream.get());
            out.extend(r.expected.to_le_bytes());
            out.extend(r.clock.to_le_bytes());
            out.extend(r.gap_start.to_le_bytes());
            out.push(r.count as u8);
            for h in r.held() {
                out.extend([h.number, h.timeout, h.slip].iter().flat_map(|v| v.to_le_bytes()));
            }
        }
        out.extend([0x53, 0x45, self.open_rows() as u8]);
        Ok(out)
    }
    /// Replaces every row by the image's, if a save writes that image.
    pub fn load(&mut self, image: &[u8]) -> Result<(), u8> {
        if !self.keeps_rules() {
            return Err(40);
        }
        *self = read_table(image).filter(Table::keeps_rules).ok_or(16)?;
        Ok(())
    }
}

/// The rows of an image, whether they keep their rules or not.
fn read_table(image: &[u8]) -> Option<Table> {
    let mut table = Table::new();
    let mut left = image;
    let mut next = 0;
    loop {
        if take(&mut left, 1)? != [0x53] {
            return None;
        }
        match take(&mut left, 1)?[0] {
            0x54 => {
                let n = take(&mut left, 1)?[0] as usize;
                if n < next || n > 31 {
                    return None;
                }
                next = n + 1;
                table.0[n] = read_row(&mut left)?;
            }
            0x45 => {
                let count = take(&mut left, 1)?[0] as usize;
                return (left.is_empty() && count == table.open_rows()).then_some(table);
            }
            _ => return None,
        }
    }
}

fn take<'a>(left: &mut &'a [u8], n: usize) -> Option<&'a [u8]> {
    let (front, rest) = left.split_at_checked(n)?;
    *left = rest;
    Some(front)
}

fn number(left: &mut &[u8], width: usize) -> Option<u64> {
    Some(take(left, width)?.iter().rev().fold(0, |v, &b| v << 8 | u64::from(b)))
}

fn read_row(left: &mut &[u8]) -> Option<Row> {
    let n = number(left, 1)? as usize;
    let originator = take(left, n)?;
    let n = number(left, 1)? as usize;
    let mut row = Row::new(originator, take(left, n)?)?;
    row.expected = number(left, 8)?;
    row.clock = number(left, 4)? as u32;
    row.gap_start = number(left, 4)? as u32;
    row.count = number(left, 1)? as usize;
    for held in row.held.get_mut(..row.count)? {
        *held = Held { number: number(left, 4)? as u32, timeout: number(left, 4)? as u32, slip: number(left, 4)? as u32 };
    }
    Some(row)
}
