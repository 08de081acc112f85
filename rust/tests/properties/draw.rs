//! Numbers drawn from a seed (splitmix64), and what the tests draw with them.

use std::env;
use std::iter::StepBy;
use std::ops::Range;

use crate::plain::{Plain, Request};
use crate::record::Record;

/// Of how many seeds one is taken: DIKOTHELM_SEEDS, for slow machines, else 1. A number that 2, 3 and 5 don't divide leaves some of each kind.
pub fn one_seed_of() -> u32 {
    env::var("DIKOTHELM_SEEDS").map_or(1, |many| many.parse().expect("DIKOTHELM_SEEDS is no number"))
}

/// Those of a test's seeds that are taken.
pub fn seeds(all: Range<u64>) -> StepBy<Range<u64>> {
    all.step_by(one_seed_of() as usize)
}

pub struct Draw(u64);

impl Draw {
    pub fn new(seed: u64) -> Draw {
        Draw(seed)
    }

    pub fn word(&mut self) -> u64 {
        self.0 = self.0.wrapping_add(0x9e37_79b9_7f4a_7c15);
        let mut z = self.0;
        z = (z ^ (z >> 30)).wrapping_mul(0xbf58_476d_1ce4_e5b9);
        z = (z ^ (z >> 27)).wrapping_mul(0x94d0_49bb_1331_11eb);
        z ^ (z >> 31)
    }

    pub fn byte(&mut self) -> u8 {
        self.word() as u8
    }

    pub fn below(&mut self, bound: usize) -> usize {
        (self.word() % bound as u64) as usize
    }

    pub fn one_in(&mut self, many: usize) -> bool {
        self.below(many) == 0
    }

    pub fn of<T: Copy>(&mut self, list: &[T]) -> T {
        list[self.below(list.len())]
    }
}

/// Over which numbers and instruments requests go, and how often each kind is asked.
#[derive(Clone)]
pub struct Mix {
    pub numbers: u32,
    pub instruments: u32,
    pub kinds: &'static [u8],
    /// Whether the numbers drawn may be above 255, which no trace can say.
    pub beyond_a_byte: bool,
}

/// The kinds are those of trace lines: open top, open sub, read, write, commit, abort, quiet.
pub const MIXES: [Mix; 5] = [
    Mix { numbers: 8, instruments: 3, kinds: &[1, 2, 2, 2, 3, 3, 3, 4, 4, 4, 5, 5, 6, 7, 7], beyond_a_byte: true },
    Mix { numbers: 64, instruments: 6, kinds: &[1, 2, 2, 2, 2, 3, 3, 3, 3, 4, 4, 4, 5, 5], beyond_a_byte: true },
    Mix { numbers: 64, instruments: 128, kinds: &[1, 2, 2, 2, 2, 2, 3, 3, 4, 4, 4, 4, 4, 4, 5, 6, 7, 7, 7], beyond_a_byte: true },
    Mix { numbers: 20, instruments: 8, kinds: &[1, 2, 3, 4, 5, 6, 7, 7], beyond_a_byte: true },
    Mix { numbers: 64, instruments: 10, kinds: &[2, 2, 2, 2, 2, 2, 2, 1, 3, 3, 4, 4, 5, 6, 7, 7, 7], beyond_a_byte: true },
];

const NO_NUMBERS: [u32; 10] = [64, 65, 66, 127, 128, 129, 192, 200, 254, 255];
const BEYOND: [u32; 6] = [256, 257, 320, 65_536, 0x8000_0001, u32::MAX];

fn some_number(draw: &mut Draw, mix: &Mix, wanted: &[u32]) -> u32 {
    if draw.one_in(60) {
        return if mix.beyond_a_byte && draw.one_in(2) { draw.of(&BEYOND) } else { draw.of(&NO_NUMBERS) };
    }
    if !wanted.is_empty() && !draw.one_in(6) {
        return draw.of(wanted);
    }
    draw.below(mix.numbers as usize) as u32
}

fn some_instrument(draw: &mut Draw, mix: &Mix) -> u32 {
    if draw.one_in(60) {
        return if mix.beyond_a_byte && draw.one_in(2) { draw.of(&BEYOND) } else { 128 + draw.below(128) as u32 };
    }
    // the last instruments as often as the first
    let i = draw.below(mix.instruments as usize) as u32;
    if draw.one_in(2) {
        127 - i
    } else {
        i
    }
}

/// A request that the state of the machine makes worth asking, most of the time.
pub fn request(draw: &mut Draw, mix: &Mix, plain: &Plain) -> Request {
    let running = plain.running_numbers();
    let leaves: Vec<u32> = running.iter().copied().filter(|&n| !plain.has_running_child(n)).collect();
    let free: Vec<u32> = (0..mix.numbers).filter(|&n| !plain.in_use(n)).collect();
    match draw.of(mix.kinds) {
        1 => Request::OpenTop(some_number(draw, mix, &free)),
        2 => Request::OpenSub(some_number(draw, mix, &free), some_number(draw, mix, &running)),
        3 => Request::Read(some_number(draw, mix, &leaves), some_instrument(draw, mix)),
        4 => Request::Write(some_number(draw, mix, &leaves), some_instrument(draw, mix)),
        5 => Request::Commit(some_number(draw, mix, &leaves)),
        6 => Request::Abort(some_number(draw, mix, &running)),
        _ => {
            let places = plain.draining_places();
            if places.is_empty() || draw.one_in(4) {
                return Request::Quiet(some_number(draw, mix, &plain.draining_numbers()), some_instrument(draw, mix));
            }
            let (a, i) = draw.of(&places);
            Request::Quiet(a, i)
        }
    }
}

/// A sound record: a forest of up to 64 scattered numbers, and groups of others that drain, with sets of any numbers in use, such as no requests might lead to.
pub fn forest(draw: &mut Draw) -> Record {
    let mut record = Record::empty();
    let mut numbers: Vec<usize> = (0..64).collect();
    for k in (1..64).rev() {
        numbers.swap(k, draw.below(k + 1));
    }
    if draw.one_in(4) {
        numbers.sort();
    }
    let many = if draw.one_in(8) { 64 } else { draw.below(65) };
    let reach = 1 + draw.below(8);
    let tops = 2 + draw.below(12);
    for k in 0..many {
        let n = numbers[k];
        record.states[n] = 1;
        if k > 0 && !draw.one_in(tops) {
            let parent = numbers[k - 1 - draw.below(reach.min(k))];
            record.parents[n] = parent as u8 + 1;
            if record.states[parent] == 2 || draw.one_in(4) {
                record.states[n] = 2;
            }
        }
    }
    let draining = if draw.one_in(2) { draw.below(65 - many) } else { 0 };
    let used = &numbers[..many + draining];
    for k in many..used.len() {
        // the first of a group drains under itself, the others under the first
        let first = if k == many || draw.one_in(4) { used[k] } else { usize::from(record.states[used[k - 1]]) - 3 };
        record.states[used[k]] = 3 + first as u8;
    }
    for _ in 0..draw.below(60) {
        if used.is_empty() {
            break;
        }
        let n = draw.of(used);
        stand_somewhere(draw, &mut record, n);
    }
    for &head in &used[many..] {
        let group = record.group(head);
        if group != 0 && group & record.standing() == 0 {
            let members: Vec<usize> = (0..64).filter(|n| group >> n & 1 == 1).collect();
            let n = draw.of(&members);
            stand_somewhere(draw, &mut record, n);
        }
    }
    record
}

fn stand_somewhere(draw: &mut Draw, record: &mut Record, n: usize) {
    let i = draw.below(8) * 18 + draw.below(2);
    if draw.one_in(2) {
        record.reads[i] |= 1 << n;
    } else {
        record.writes[i] |= 1 << n;
    }
}
