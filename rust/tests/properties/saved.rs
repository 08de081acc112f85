//! The saved form against the model's writer and reader.

use dikothelm::{image, Answer, Bench, Refusal, LONGEST_TEXT};

use crate::draw::{self, Draw, MIXES};
use crate::plain::Plain;
use crate::record::Record;

/// A bench that some requests lead to, or any sound one.
fn some_bench(draw: &mut Draw) -> Record {
    if draw.one_in(2) {
        return draw::forest(draw);
    }
    let (mut bench, mut plain) = (Bench::new(), Plain::empty());
    let mix = &MIXES[draw.below(MIXES.len())];
    for _ in 0..draw.below(200) {
        let request = draw::request(draw, mix, &plain);
        plain.step(request);
        request.asked_of(&mut bench);
    }
    Record::of(&bench)
}

/// Number 63 on top of those that don't drain, the others in two groups, and every instrument read and written.
fn full() -> Record {
    let mut record = Record::empty();
    for n in 0..64 {
        (record.parents[n], record.states[n]) = match n % 7 {
            0 => (64, 2),
            5 | 6 => (0, 3 + 49 + (n % 7) as u8), // under 54 and under 55
            _ => (64, 1),
        };
    }
    (record.parents[63], record.states[63]) = (0, 1);
    for i in 0..128 {
        record.reads[i] = 1 << (i % 64);
        record.writes[i] = u64::MAX >> (i % 64);
    }
    record
}

/// Loads a text into arrays that hold something else, and checks all that load says of it.
fn assert_loads_as_the_model(text: &[u8], at: &dyn Fn() -> String) -> u8 {
    let (mut actions, mut owners) = ([0x5a; 128], [0x5a5a; 256]);
    let answer = image::load(&mut actions, &mut owners, text);
    let loaded = Bench::from_image(actions, owners);
    match Record::read(text) {
        Ok(record) => {
            assert_eq!(answer, 0, "{}", at());
            assert!(loaded == record.bench(), "loaded, {}", at());
            assert!(loaded.save().as_deref() == Ok(text), "saved again, {}", at());
            assert!(Bench::load(text) == Ok(loaded), "{}", at());
        }
        Err(expected) => {
            assert_eq!(answer, expected, "{}", at());
            assert!(loaded == Bench::new(), "refused and not empty, {}", at());
            assert_eq!(Answer::from(Bench::load(text)).number(), expected, "{}", at());
        }
    }
    answer
}

/// Saves into a buffer of that length and checks what was written, and that nothing else was.
fn assert_saves(bench: &Bench, text: &[u8], room: usize, at: &dyn Fn() -> String) {
    let mut out = vec![0xaa; room];
    let saved = bench.save_into(&mut out);
    if room < text.len() {
        assert_eq!(saved, Err(Refusal::NoRoom), "{}", at());
        assert!(out.iter().all(|&byte| byte == 0xaa), "refused and written, {}", at());
    } else {
        assert_eq!(saved, Ok(text.len()), "{}", at());
        assert!(out[..text.len()] == *text && out[text.len()..].iter().all(|&byte| byte == 0xaa), "text, {}", at());
    }
}

#[test]
fn saved_and_loaded() {
    for seed in draw::seeds(20_000..24_000) {
        let mut draw = Draw::new(seed);
        let record = some_bench(&mut draw);
        let at = || format!("seed {seed}");
        let (bench, text) = (record.bench(), record.text());
        assert!(bench.save().as_ref() == Ok(&text), "{}", at());
        assert_eq!(bench.text_size(), Ok(text.len()), "{}", at());
        assert_eq!(assert_loads_as_the_model(&text, &at), 0, "{}", at());
        for room in [text.len(), text.len() + 1 + draw.below(50), text.len().saturating_sub(1), draw.below(text.len() + 1)] {
            assert_saves(&bench, &text, room, &at);
        }
    }
}

#[test]
fn the_longest_text() {
    let (record, at) = (full(), || String::from("the full bench"));
    assert!(record.sound());
    let text = record.text();
    assert_eq!(text.len(), LONGEST_TEXT);
    assert_eq!(record.bench().text_size(), Ok(LONGEST_TEXT));
    for room in [0, 1, 5311, 5312, 5313] {
        assert_saves(&record.bench(), &text, room, &at);
    }
    assert_eq!(assert_loads_as_the_model(&text, &at), 0);
    let mut draw = Draw::new(1);
    for place in 0..text.len() {
        for others in [&b"0123456789abcdef"[..], b"ABCDEFg\n\r \0\xff"] {
            let mut changed = text.clone();
            while changed[place] == text[place] {
                changed[place] = draw.of(others);
            }
            assert_loads_as_the_model(&changed, &|| format!("place {place}"));
        }
    }
}

#[test]
fn unsound_records_are_not_saved() {
    for room in [0, 8, 5311, 5312] {
        let mut record = full();
        record.states[63] = 2;
        let mut out = vec![0xaa; room];
        assert_eq!(record.bench().save_into(&mut out), Err(Refusal::Unsound));
        assert!(out.iter().all(|&byte| byte == 0xaa));
        assert_eq!(image::save(record.bench().actions(), record.bench().owners(), &mut out), (7, 0));
    }
}

#[test]
fn every_byte_at_every_place() {
    let mut bench = Bench::new();
    for (n, p) in [(2, 1), (3, 1), (63, 3)] {
        let _ = bench.open_top(1);
        bench.open_sub(n, p).unwrap();
    }
    bench.write(2, 5).unwrap();
    bench.commit(2).unwrap();
    bench.read(63, 127).unwrap();
    let text = bench.save().unwrap();
    assert_eq!(text.len(), 4 * 9 + 2 * 37);
    let mut answers = [0; 10];
    for place in 0..text.len() {
        for value in 0..=255 {
            let mut changed = text.clone();
            changed[place] = value;
            answers[usize::from(assert_loads_as_the_model(&changed, &|| format!("place {place}, value {value}")))] += 1;
        }
    }
    assert!(answers[0] > 100 && answers[7] > 100 && answers[8] > 1000, "{answers:?}");
}

/// One damage, or a few.
fn damaged(draw: &mut Draw, text: &[u8]) -> Vec<u8> {
    let mut text = text.to_vec();
    for _ in 0..1 + draw.below(2) {
        let place = draw.below(text.len() + 1);
        let mut lines: Vec<Vec<u8>> = text.split_inclusive(|&byte| byte == b'\n').map(<[u8]>::to_vec).collect();
        match draw.below(9) {
            0 if place < text.len() => text[place] = draw.of(b"0123456789abcdef"),
            1 if place < text.len() => text[place] = draw.byte(),
            2 if place < text.len() => drop(text.remove(place)),
            3 => text.insert(place, draw.of(b"0123456789abcdef\n\r F")),
            4 => text.truncate(place),
            5 if lines.len() > 1 => {
                let (one, other) = (draw.below(lines.len()), draw.below(lines.len()));
                lines.swap(one, other);
                text = lines.concat();
            }
            6 if !lines.is_empty() => {
                lines.remove(draw.below(lines.len()));
                text = lines.concat();
            }
            7 if !lines.is_empty() => {
                let (from, to) = (draw.below(lines.len()), draw.below(lines.len() + 1));
                lines.insert(to, lines[from].clone());
                text = lines.concat();
            }
            _ => {
                let (n, state) = (draw.below(70), draw.below(5));
                let parent = if state == 3 && draw.one_in(2) {
                    n
                } else if draw.one_in(2) {
                    0xff
                } else {
                    draw.below(70)
                };
                let line = if draw.one_in(2) {
                    format!("11{n:02x}{state:02x}{parent:02x}\n")
                } else {
                    format!("12{:02x}{:016x}{:016x}\n", draw.below(132), draw.word() & draw.word() & draw.word(), 1u64 << n.min(63))
                };
                lines.insert(draw.below(lines.len() + 1), line.into_bytes());
                text = lines.concat();
            }
        }
    }
    text
}

#[test]
fn damaged_texts() {
    let mut answers = [0; 10];
    for seed in draw::seeds(30_000..31_500) {
        let mut draw = Draw::new(seed);
        let text = some_bench(&mut draw).text();
        for turn in 0..30 {
            let text = damaged(&mut draw, &text);
            let at = || format!("seed {seed}, turn {turn}: {:?}", String::from_utf8_lossy(&text));
            answers[usize::from(assert_loads_as_the_model(&text, &at))] += 1;
        }
    }
    let often = 1000 / draw::one_seed_of();
    assert!(answers[0] > often && answers[7] > often && answers[8] > often, "{answers:?}");
}
