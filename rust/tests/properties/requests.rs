//! The seven requests against the plain machine.

use dikothelm::Bench;

use crate::draw::{self, Draw, Mix, MIXES};
use crate::plain::{Plain, Request};
use crate::record::Record;

/// The numbers leave the tree with a state, 0 or that of draining.
fn left_the_tree(record: &mut Record, numbers: u64, state: u8) {
    for n in (0..64).filter(|n| numbers >> n & 1 == 1) {
        record.parents[n] = 0;
        record.states[n] = state;
    }
}

/// What a request makes of the arrays once it is accepted.
fn changed(before: &Record, family: u64, request: Request) -> Record {
    let mut record = before.clone();
    match request {
        Request::OpenTop(n) => record.states[n as usize] = 1,
        Request::OpenSub(n, p) => {
            record.states[n as usize] = 1;
            record.parents[n as usize] = p as u8 + 1;
        }
        Request::Read(a, i) => record.reads[i as usize] |= 1 << a,
        Request::Write(a, i) => record.writes[i as usize] |= 1 << a,
        Request::Commit(a) if record.parents[a as usize] != 0 => record.states[a as usize] = 2,
        Request::Commit(_) => {
            left_the_tree(&mut record, family, 0);
            for set in record.reads.iter_mut().chain(&mut record.writes) {
                *set &= !family;
            }
        }
        Request::Abort(a) => {
            let drains = record.standing() & family != 0;
            left_the_tree(&mut record, family, if drains { 3 + a as u8 } else { 0 });
        }
        Request::Quiet(a, i) => {
            let group = record.group(a as usize);
            record.reads[i as usize] &= !group;
            record.writes[i as usize] &= !group;
            if record.standing() & group == 0 {
                left_the_tree(&mut record, group, 0);
            }
        }
    }
    record
}

/// How often each kind of request got each answer.
type Tally = [[u32; 11]; 8];

fn walk(seed: u64, mut bench: Bench, mut plain: Plain, mix: &Mix, requests: usize, tally: &mut Tally) {
    let mut draw = Draw::new(seed);
    for turn in 0..requests {
        let request = draw::request(&mut draw, mix, &plain);
        let at = || format!("seed {seed}, request {turn}: {request:?}");
        let before = bench.clone();
        let family = match request {
            Request::Commit(a) | Request::Abort(a) => plain.family(a).iter().fold(0, |set, n| set | 1 << n),
            _ => 0,
        };
        let expected = plain.step(request);
        let answer = request.asked_of(&mut bench);
        assert_eq!(answer, expected, "answer, {}", at());
        tally[request.kind()][usize::from(answer)] += 1;
        if answer == 0 {
            assert!(Record::of(&bench) == changed(&Record::of(&before), family, request), "record, {}", at());
        } else {
            assert!(bench == before, "refused and changed, {}", at());
        }
        plain.assert_agrees(&bench, &at);
    }
    assert!(bench.is_sound(), "seed {seed}");
}

/// Every answer that a kind of request can get on a sound bench was got often enough.
fn assert_covered(tally: &Tally) {
    let possible: [(usize, &[usize]); 7] = [
        (1, &[0, 1, 3]),
        (2, &[0, 1, 3, 4]),
        (3, &[0, 1, 2, 4, 5, 6]),
        (4, &[0, 1, 2, 4, 5, 6]),
        (5, &[0, 1, 4, 5]),
        (6, &[0, 1, 4]),
        (7, &[0, 1, 2, 10]),
    ];
    for (kind, answers) in possible {
        for (answer, &got) in tally[kind].iter().enumerate() {
            assert_eq!(got > 50 / draw::one_seed_of(), answers.contains(&answer), "kind {kind} got answer {answer} {got} times");
        }
    }
}

#[test]
fn from_an_empty_bench() {
    let mut tally = [[0; 11]; 8];
    for seed in draw::seeds(0..250) {
        walk(seed, Bench::new(), Plain::empty(), &MIXES[seed as usize % MIXES.len()], 1000, &mut tally);
    }
    assert_covered(&tally);
}

#[test]
fn from_any_sound_record() {
    let mut tally = [[0; 11]; 8];
    for seed in draw::seeds(10_000..14_000) {
        let record = draw::forest(&mut Draw::new(seed));
        assert!(record.sound());
        walk(seed, record.bench(), Plain::of(&record), &MIXES[seed as usize % MIXES.len()], 40, &mut tally);
    }
    assert_covered(&tally);
}
