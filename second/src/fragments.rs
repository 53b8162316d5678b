//! Fragments: four groups of sixteen places in the house store.
use crate::names::is_callsign;

pub const STORE: usize = 65536;
const PLACE: usize = 1024;

pub struct Group {
    originator: Option<Vec<u8>>,
    master: u32,
    total: u16,
    lengths: [Option<usize>; 16],
    first: u32,
}

impl Group {
    fn complete(&self) -> bool {
        self.lengths[..self.total as usize].iter().all(Option::is_some)
    }
}

#[derive(Default)]
pub struct Groups([Option<Group>; 4]);

type Originator<'a> = Option<&'a [u8]>;

impl Groups {
    fn find(&self, o: Originator, master: u32) -> Option<usize> {
        self.0.iter().position(|g| g.as_ref().is_some_and(|g| g.originator.as_deref() == o && g.master == master))
    }
    pub fn add(&mut self, store: &mut [u8], o: Originator, master: u32, n: u16, m: u16, time: u32, bytes: &[u8]) -> Result<(), u8> {
        refusal(store, o)?;
        if !(2..=16).contains(&m) || n < 1 || n > m || bytes.len() > PLACE {
            return Err(17);
        }
        let i = match self.find(o, master) {
            Some(i) => {
                let g = self.0[i].as_ref().unwrap();
                if g.total != m {
                    return Err(18);
                }
                if g.lengths[n as usize - 1].is_some() {
                    return Err(19);
                }
                i
            }
            None => {
                let i = self.0.iter().position(Option::is_none).ok_or(20)?;
                self.0[i] = Some(Group { originator: o.map(<[u8]>::to_vec), master, total: m, lengths: [None; 16], first: time });
                i
            }
        };
        self.0[i].as_mut().unwrap().lengths[n as usize - 1] = Some(bytes.len());
        let at = (16 * i + n as usize - 1) * PLACE;
        store[at..at + bytes.len()].copy_from_slice(bytes);
        Ok(())
    }
    pub fn collect(&mut self, store: &[u8], o: Originator, master: u32, room: usize) -> Result<Vec<u8>, u8> {
        refusal(store, o)?;
        let i = self.find(o, master).ok_or(21)?;
        let g = self.0[i].as_ref().unwrap();
        if !g.complete() {
            return Err(21);
        }
        let joined: Vec<u8> = (0..g.total as usize)
            .flat_map(|n| {
                let at = (16 * i + n) * PLACE;
                store[at..at + g.lengths[n].unwrap()].to_vec()
            })
            .collect();
        if joined.len() > room {
            return Err(5);
        }
        self.0[i] = None;
        Ok(joined)
    }
    pub fn sweep(&mut self, time: u32) {
        for g in &mut self.0 {
            if g.as_ref().is_some_and(|g| !g.complete() && time.saturating_sub(g.first) >= 604800) {
                *g = None;
            }
        }
    }
}

fn refusal(store: &[u8], o: Originator) -> Result<(), u8> {
    if store.len() != STORE {
        return Err(23);
    }
    if o.is_some_and(|o| !is_callsign(o)) {
        return Err(8);
    }
    Ok(())
}
