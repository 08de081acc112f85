//! The plain machine of Moss's rules. Each action carries the list of its ancestors from the moment it is opened, and each instrument has its owners only,
//! running and draining: a subaction's commit puts the parent in its place, a top's commit takes out the top, and an abort puts the aborted action, now
//! draining, in the place of itself and its descendants. It goes, and they with it, when the last of its instruments is quiet.

use std::collections::{BTreeMap, BTreeSet};

use dikothelm::{Answer, Bench, State};

use crate::record::Record;

#[derive(Clone, Copy, Debug, PartialEq)]
pub enum Request {
    OpenTop(u32),
    OpenSub(u32, u32),
    Read(u32, u32),
    Write(u32, u32),
    Commit(u32),
    Abort(u32),
    Quiet(u32, u32),
}

impl Request {
    pub fn kind(self) -> usize {
        match self {
            Request::OpenTop(..) => 1,
            Request::OpenSub(..) => 2,
            Request::Read(..) => 3,
            Request::Write(..) => 4,
            Request::Commit(..) => 5,
            Request::Abort(..) => 6,
            Request::Quiet(..) => 7,
        }
    }

    /// The answer's number.
    pub fn asked_of(self, bench: &mut Bench) -> u8 {
        Answer::from(match self {
            Request::OpenTop(n) => bench.open_top(n),
            Request::OpenSub(n, p) => bench.open_sub(n, p),
            Request::Read(a, i) => bench.read(a, i),
            Request::Write(a, i) => bench.write(a, i),
            Request::Commit(a) => bench.commit(a),
            Request::Abort(a) => bench.abort(a),
            Request::Quiet(a, i) => bench.quiet(a, i),
        })
        .number()
    }
}

#[derive(Clone)]
pub struct Plain {
    /// Of each running or committed number, its ancestors, the parent first.
    ancestors: BTreeMap<u32, Vec<u32>>,
    running: BTreeSet<u32>,
    /// Of each draining owner, itself and all that were aborted with it.
    draining: BTreeMap<u32, BTreeSet<u32>>,
    readers: Vec<BTreeSet<u32>>,
    writers: Vec<BTreeSet<u32>>,
}

impl Plain {
    pub fn empty() -> Plain {
        let none = vec![BTreeSet::new(); 128];
        Plain { ancestors: BTreeMap::new(), running: BTreeSet::new(), draining: BTreeMap::new(), readers: none.clone(), writers: none }
    }

    /// The machine that says the same as a sound record.
    pub fn of(record: &Record) -> Plain {
        let mut plain = Plain::empty();
        for n in (0..64).filter(|&n| record.states[n] != 0) {
            if let Some(head) = record.head(n) {
                plain.draining.entry(head as u32).or_default().insert(n as u32);
                continue;
            }
            plain.ancestors.insert(n as u32, record.ancestors(n).iter().map(|&k| k as u32).collect());
            if record.states[n] == 1 {
                plain.running.insert(n as u32);
            }
        }
        for i in 0..128 {
            plain.readers[i] = record.owners(record.reads[i]);
            plain.writers[i] = record.owners(record.writes[i]);
        }
        plain
    }

    pub fn in_use(&self, n: u32) -> bool {
        self.ancestors.contains_key(&n) || self.head(n).is_some()
    }

    /// The draining owner that n was aborted with.
    pub fn head(&self, n: u32) -> Option<u32> {
        self.draining.iter().find(|(_, aborted)| aborted.contains(&n)).map(|(&head, _)| head)
    }

    /// The draining owners, each with every instrument that it has.
    pub fn draining_places(&self) -> Vec<(u32, u32)> {
        let owns = |a, i: usize| self.readers[i].contains(a) || self.writers[i].contains(a);
        self.draining.keys().flat_map(|a| (0..128).filter(move |&i| owns(a, i)).map(move |i| (*a, i as u32))).collect()
    }

    /// The draining owners and all that were aborted with them.
    pub fn draining_numbers(&self) -> Vec<u32> {
        self.draining.values().flatten().copied().collect()
    }

    pub fn running_numbers(&self) -> Vec<u32> {
        self.running.iter().copied().collect()
    }

    pub fn has_running_child(&self, a: u32) -> bool {
        self.running.iter().any(|k| self.ancestors[k].first() == Some(&a))
    }

    /// a and its descendants.
    pub fn family(&self, a: u32) -> BTreeSet<u32> {
        self.ancestors.iter().filter(|(&k, above)| k == a || above.contains(&a)).map(|(&k, _)| k).collect()
    }

    fn take_out(&mut self, a: u32) {
        for gone in self.family(a) {
            self.ancestors.remove(&gone);
            self.running.remove(&gone);
            for owners in self.readers.iter_mut().chain(&mut self.writers) {
                owners.remove(&gone);
            }
        }
    }

    /// The aborted action takes the place of itself and its descendants in every set; where they own nothing they are gone.
    fn drain(&mut self, a: u32) {
        let aborted = self.family(a);
        let left = |sets: &[BTreeSet<u32>]| -> Vec<usize> { (0..128).filter(|&i| !sets[i].is_disjoint(&aborted)).collect() };
        let (reads, writes) = (left(&self.readers), left(&self.writers));
        self.take_out(a);
        if !reads.is_empty() || !writes.is_empty() {
            self.draining.insert(a, aborted);
        }
        for i in reads {
            self.readers[i].insert(a);
        }
        for i in writes {
            self.writers[i].insert(a);
        }
    }

    /// Whether each of the owners is the asker or an ancestor of it.
    fn stand_aside(&self, owners: &BTreeSet<u32>, asker: u32) -> bool {
        owners.iter().all(|owner| *owner == asker || self.ancestors[&asker].contains(owner))
    }

    /// The answer's number. The rows stand in the order in which answers come first.
    pub fn step(&mut self, request: Request) -> u8 {
        match request {
            Request::OpenTop(n) => {
                if n > 63 {
                    return 1;
                }
                if self.in_use(n) {
                    return 3;
                }
                self.ancestors.insert(n, Vec::new());
                self.running.insert(n);
            }
            Request::OpenSub(n, p) => {
                if n > 63 || p > 63 {
                    return 1;
                }
                if self.in_use(n) {
                    return 3;
                }
                if !self.running.contains(&p) {
                    return 4;
                }
                let mut above = vec![p];
                above.extend(&self.ancestors[&p]);
                self.ancestors.insert(n, above);
                self.running.insert(n);
            }
            Request::Read(a, i) | Request::Write(a, i) => {
                if a > 63 {
                    return 1;
                }
                if i > 127 {
                    return 2;
                }
                if !self.running.contains(&a) {
                    return 4;
                }
                if self.has_running_child(a) {
                    return 5;
                }
                let i = i as usize;
                let writes = matches!(request, Request::Write(..));
                if !self.stand_aside(&self.writers[i], a) || writes && !self.stand_aside(&self.readers[i], a) {
                    return 6;
                }
                if writes {
                    self.writers[i].insert(a);
                } else {
                    self.readers[i].insert(a);
                }
            }
            Request::Commit(a) => {
                if a > 63 {
                    return 1;
                }
                if !self.running.contains(&a) {
                    return 4;
                }
                if self.has_running_child(a) {
                    return 5;
                }
                match self.ancestors[&a].first().copied() {
                    None => self.take_out(a),
                    Some(parent) => {
                        self.running.remove(&a);
                        for owners in self.readers.iter_mut().chain(&mut self.writers) {
                            if owners.remove(&a) {
                                owners.insert(parent);
                            }
                        }
                    }
                }
            }
            Request::Abort(a) => {
                if a > 63 {
                    return 1;
                }
                if !self.running.contains(&a) {
                    return 4;
                }
                self.drain(a);
            }
            Request::Quiet(a, i) => {
                if a > 63 {
                    return 1;
                }
                if i > 127 {
                    return 2;
                }
                let drains = self.draining.contains_key(&a);
                if !drains || !self.readers[i as usize].contains(&a) && !self.writers[i as usize].contains(&a) {
                    return 10;
                }
                self.readers[i as usize].remove(&a);
                self.writers[i as usize].remove(&a);
                if !self.readers.iter().chain(&self.writers).any(|owners| owners.contains(&a)) {
                    self.draining.remove(&a);
                }
            }
        }
        0
    }

    /// Fails unless the bench has the same numbers in use, running, draining under the same, with the same parents, and by Moss's rules the same owners of
    /// every instrument.
    pub fn assert_agrees(&self, bench: &Bench, at: &dyn Fn() -> String) {
        for n in 0..64 {
            let state = match (self.in_use(n), self.running.contains(&n), self.head(n)) {
                (false, _, _) => State::Free,
                (true, true, _) => State::Running,
                (true, false, None) => State::Committed,
                (true, false, Some(_)) => State::Draining,
            };
            assert_eq!(bench.state(n), Some(state), "state of {n}, {}", at());
            assert_eq!(bench.head(n), self.head(n), "head of {n}, {}", at());
            let parent = self.ancestors.get(&n).and_then(|above| above.first().copied());
            assert_eq!(bench.parent(n), parent, "parent of {n}, {}", at());
        }
        let record = Record::of(bench);
        for i in 0..128 {
            if record.reads[i] != 0 || !self.readers[i].is_empty() {
                assert_eq!(record.owners(record.reads[i]), self.readers[i], "read owners of {i}, {}", at());
                assert!(bench.read_owners(i as u32).iter().eq(self.readers[i].iter().copied()), "read_owners({i}), {}", at());
            }
            if record.writes[i] != 0 || !self.writers[i].is_empty() {
                assert_eq!(record.owners(record.writes[i]), self.writers[i], "write owners of {i}, {}", at());
                assert!(bench.write_owners(i as u32).iter().eq(self.writers[i].iter().copied()), "write_owners({i}), {}", at());
            }
        }
    }
}
