//! The record as it lies in the two arrays, with plain loops for what a sound one is and how it is saved.

use std::collections::BTreeSet;

use dikothelm::Bench;

/// A state that no number of a sound record has: that of one that drains under nobody.
const MEANINGLESS: u8 = 67;

#[derive(Clone, PartialEq)]
pub struct Record {
    /// 0 for none, else the parent's number + 1.
    pub parents: [u8; 64],
    /// 0 free, 1 running, 2 committed, 3 + h draining under h.
    pub states: [u8; 64],
    pub reads: [u64; 128],
    pub writes: [u64; 128],
}

impl Record {
    pub fn empty() -> Record {
        Record { parents: [0; 64], states: [0; 64], reads: [0; 128], writes: [0; 128] }
    }

    pub fn of(bench: &Bench) -> Record {
        let mut record = Record::empty();
        record.parents.copy_from_slice(&bench.actions()[..64]);
        record.states.copy_from_slice(&bench.actions()[64..]);
        record.reads.copy_from_slice(&bench.owners()[..128]);
        record.writes.copy_from_slice(&bench.owners()[128..]);
        record
    }

    pub fn bench(&self) -> Bench {
        let (mut actions, mut owners) = ([0; 128], [0; 256]);
        actions[..64].copy_from_slice(&self.parents);
        actions[64..].copy_from_slice(&self.states);
        owners[..128].copy_from_slice(&self.reads);
        owners[128..].copy_from_slice(&self.writes);
        Bench::from_image(actions, owners)
    }

    fn free(&self, n: usize) -> bool {
        self.states[n] == 0
    }

    /// The action that n drains under.
    pub fn head(&self, n: usize) -> Option<usize> {
        usize::from(self.states[n]).checked_sub(3).filter(|&head| head < 64)
    }

    /// All numbers that stand in some set.
    pub fn standing(&self) -> u64 {
        self.reads.iter().chain(&self.writes).fold(0, |all, set| all | set)
    }

    /// All numbers that drain under one.
    pub fn group(&self, head: usize) -> u64 {
        (0..64).filter(|&n| self.head(n) == Some(head)).fold(0, |all, n| all | 1 << n)
    }

    /// Rules 1 to 4, bytes that mean something, and groups that drain under a head that drains under itself and of which one stands in a set.
    pub fn sound(&self) -> bool {
        if self.states.iter().any(|&state| state > 66) || self.parents.iter().any(|&parent| parent > 64) {
            return false;
        }
        let standing = self.standing();
        (0..64).all(|n| {
            let top_runs = self.free(n) || self.parents[n] != 0 || self.states[n] != 2;
            let free_is_bare = !self.free(n) || self.parents[n] == 0 && standing >> n & 1 == 0;
            let parent_fits = self.parents[n] == 0 || {
                let parent = usize::from(self.parents[n]) - 1;
                !self.free(parent) && self.head(parent).is_none() && (self.states[n] != 1 || self.states[parent] == 1)
            };
            let drains_well =
                self.head(n).map_or(true, |head| self.parents[n] == 0 && self.head(head) == Some(head) && self.group(head) & standing != 0);
            top_runs && free_is_bare && parent_fits && drains_well && self.reaches_a_top(n)
        })
    }

    fn reaches_a_top(&self, n: usize) -> bool {
        let mut n = n;
        for _ in 0..63 {
            if self.parents[n] == 0 {
                return true;
            }
            n = usize::from(self.parents[n]) - 1;
        }
        self.parents[n] == 0
    }

    /// Of a sound record: the parent, its parent, and so on.
    pub fn ancestors(&self, n: usize) -> Vec<usize> {
        let mut found = Vec::new();
        let mut n = n;
        while self.parents[n] != 0 {
            n = usize::from(self.parents[n]) - 1;
            found.push(n);
        }
        found
    }

    /// Of a sound record: the heirs of a set's members.
    pub fn owners(&self, set: u64) -> BTreeSet<u32> {
        (0..64)
            .filter(|n| set >> n & 1 == 1)
            .map(|n| {
                if let Some(head) = self.head(n) {
                    return head as u32;
                }
                let mut line = vec![n];
                line.extend(self.ancestors(n));
                line.into_iter().find(|&k| self.states[k] == 1).expect("an heir") as u32
            })
            .collect()
    }

    /// The saved form of a sound record.
    pub fn text(&self) -> Vec<u8> {
        let mut text = String::new();
        for n in (0..64).filter(|&n| !self.free(n)) {
            let (state, above) = match self.head(n) {
                Some(head) => (3, head as u8),
                None if self.parents[n] == 0 => (self.states[n], 0xff),
                None => (self.states[n], self.parents[n] - 1),
            };
            text += &format!("11{n:02x}{state:02x}{above:02x}\n");
        }
        for i in (0..128).filter(|&i| self.reads[i] != 0 || self.writes[i] != 0) {
            text += &format!("12{i:02x}{:016x}{:016x}\n", self.reads[i], self.writes[i]);
        }
        text.into_bytes()
    }

    /// The record that a text saved, or 8 or 7.
    pub fn read(text: &[u8]) -> Result<Record, u8> {
        let record = Record::shaped(text).ok_or(8)?;
        if record.sound() {
            Ok(record)
        } else {
            Err(7)
        }
    }

    /// The record of a well-shaped text.
    fn shaped(text: &[u8]) -> Option<Record> {
        let text = std::str::from_utf8(text).ok()?;
        let mut record = Record::empty();
        let mut lines: Vec<&str> = text.split('\n').collect();
        if lines.pop() != Some("") {
            return None;
        }
        let (mut last_number, mut last_instrument) = (None, None);
        for line in lines {
            if !line.bytes().all(|c| c.is_ascii_digit() || (b'a'..=b'f').contains(&c)) || line.len() < 4 {
                return None;
            }
            let number = |from: usize, digits: usize| u64::from_str_radix(&line[from..from + digits], 16).ok();
            let second = number(2, 2)? as usize;
            match (&line[..2], line.len()) {
                ("11", 8) => {
                    let (state, above) = (number(4, 2)? as u8, number(6, 2)? as u8);
                    if last_instrument.is_some() || last_number >= Some(second) || second > 63 || !(1..=3).contains(&state) {
                        return None;
                    }
                    (record.parents[second], record.states[second]) = match (state, above) {
                        (3, 0..=63) => (0, 3 + above),
                        (3, 0xff) => (0, MEANINGLESS),
                        (_, 0..=63) => (above + 1, state),
                        (_, 0xff) => (0, state),
                        _ => return None,
                    };
                    last_number = Some(second);
                }
                ("12", 36) => {
                    let (reads, writes) = (number(4, 16)?, number(20, 16)?);
                    if last_instrument >= Some(second) || second > 127 || reads == 0 && writes == 0 {
                        return None;
                    }
                    record.reads[second] = reads;
                    record.writes[second] = writes;
                    last_instrument = Some(second);
                }
                _ => return None,
            }
        }
        Some(record)
    }
}
