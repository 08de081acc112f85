//! Records of anything: random bytes, sound records with a byte or a word changed, other lengths.

use dikothelm::{image, Bench, Refusal};

use crate::draw::{self, Draw, MIXES};
use crate::plain::Plain;
use crate::record::Record;

fn random_bytes(draw: &mut Draw) -> Record {
    let mut record = Record::empty();
    record.parents.fill_with(|| draw.byte());
    record.states.fill_with(|| draw.byte());
    record.reads.fill_with(|| draw.word());
    record.writes.fill_with(|| draw.word());
    record
}

/// A few numbers with bytes that mean something, sound or not.
fn few_numbers(draw: &mut Draw) -> Record {
    let mut record = Record::empty();
    let mut in_use = 0;
    for n in 0..4 {
        let head = if draw.one_in(4) { draw.below(4) } else { n };
        record.states[n] = draw.of(&[0, 1, 1, 2, 3 + head as u8]);
        record.parents[n] = draw.of(&[0, 0, 0, 0, 1, 2, 3, 4]);
        if (record.states[n] == 0 || record.head(n).is_some()) && !draw.one_in(8) {
            record.parents[n] = 0;
        }
        in_use |= u64::from(record.states[n] != 0) << n;
    }
    let drains = (0..4).any(|n| record.head(n).is_some());
    if draw.one_in(if drains { 1 } else { 3 }) {
        let named = if draw.one_in(6) { 15 } else { in_use };
        record.reads[0] = draw.word() & named;
        record.writes[127] = draw.word() & named;
    }
    record
}

/// A sound record with one byte or one word changed.
pub fn changed_forest(draw: &mut Draw) -> Record {
    let mut record = draw::forest(draw);
    let (n, i) = (draw.below(64), draw.below(128));
    match draw.below(5) {
        0 => record.parents[n] = draw.below(68) as u8,
        1 => record.states[n] = if draw.one_in(2) { draw.below(4) } else { draw.below(70) } as u8,
        2 => record.reads[i] |= 1 << n,
        3 => record.writes[i] ^= 1 << n,
        _ => {}
    }
    record
}

fn assert_as_the_model(draw: &mut Draw, record: &Record, at: &dyn Fn() -> String) -> bool {
    let bench = record.bench();
    let sound = record.sound();
    assert_eq!(bench.is_sound(), sound, "sound, {}", at());
    if sound {
        let mut plain = Plain::of(record);
        let mut bench = bench;
        for _ in 0..4 {
            let mix = &MIXES[draw.below(MIXES.len())];
            let request = draw::request(draw, mix, &plain);
            assert_eq!(request.asked_of(&mut bench), plain.step(request), "{request:?}, {}", at());
            plain.assert_agrees(&bench, at);
        }
        return true;
    }
    let plain = Plain::empty();
    for turn in 0..6 {
        let mix = &MIXES[turn % MIXES.len()];
        let request = draw::request(draw, mix, &plain);
        let mut asked = bench.clone();
        assert_eq!(request.asked_of(&mut asked), 7, "{request:?}, {}", at());
        assert!(asked == bench, "refused and changed by {request:?}, {}", at());
    }
    assert_eq!(bench.save(), Err(Refusal::Unsound), "{}", at());
    assert_eq!(bench.text_size(), Err(Refusal::Unsound), "{}", at());
    assert_eq!(image::text_size(bench.actions(), bench.owners()), (7, 0), "{}", at());
    if draw.one_in(40) {
        // looking at it doesn't fail
        assert!(format!("{bench:?} {:?} {:?}", bench.heir(0), bench.read_owners(0)).starts_with("UnsoundBench"));
    }
    false
}

#[test]
fn images_of_anything() {
    let (mut sound, mut draining) = ([0; 3], [0; 3]);
    for seed in draw::seeds(50_000..80_000) {
        let mut draw = Draw::new(seed);
        let kind = (seed % 3) as usize;
        let record = [random_bytes, few_numbers, changed_forest][kind](&mut draw);
        let taken = assert_as_the_model(&mut draw, &record, &|| format!("seed {seed}"));
        sound[kind] += u32::from(taken);
        draining[kind] += u32::from(taken && (0..64).any(|n| record.head(n).is_some()));
    }
    let often = 500 / draw::one_seed_of()..9_500 / draw::one_seed_of();
    assert!(sound[0] == 0 && often.contains(&sound[1]) && often.contains(&sound[2]), "{sound:?}");
    assert!(often.contains(&draining[1]) && often.contains(&draining[2]), "{draining:?}");
}

/// Chains of every length in every order of numbers, and the ring that the longest one closes.
#[test]
fn chains() {
    for seed in 90_000..90_200 {
        let mut draw = Draw::new(seed);
        let mut numbers: Vec<usize> = (0..64).collect();
        for k in (1..64).rev() {
            numbers.swap(k, draw.below(k + 1));
        }
        match seed {
            90_000 => numbers.sort(),
            90_001 => numbers.sort_by(|a, b| b.cmp(a)),
            _ => {}
        }
        let mut record = Record::empty();
        for k in 0..64 {
            record.states[numbers[k]] = 1;
            record.parents[numbers[k]] = if k == 0 { 0 } else { numbers[k - 1] as u8 + 1 };
            assert!(assert_as_the_model(&mut draw, &record, &|| format!("seed {seed}, chain of {k}")));
        }
        record.parents[numbers[0]] = numbers[draw.below(64)] as u8 + 1;
        assert!(!assert_as_the_model(&mut draw, &record, &|| format!("seed {seed}, ring")));
    }
}

#[test]
fn emptied() {
    for seed in 95_000..95_100 {
        let record = random_bytes(&mut Draw::new(seed)).bench();
        let (mut actions, mut owners) = (*record.actions(), *record.owners());
        assert_eq!(image::empty(&mut actions, &mut owners), 0);
        assert!(Bench::from_image(actions, owners) == Bench::new());
    }
}

#[test]
fn other_lengths_get_7_and_stay() {
    let lengths = |right: usize| [0, 1, 2, right / 2, right - 1, right, right + 1, 2 * right];
    for many_actions in lengths(128) {
        for many_owners in lengths(256) {
            if (many_actions, many_owners) == (128, 256) {
                continue;
            }
            for fill in [0, 1, 0x5a] {
                let (actions, owners) = (vec![fill; many_actions], vec![u64::from(fill); many_owners]);
                let (mut a, mut o) = (actions.clone(), owners.clone());
                let mut out = [0xaa; 6000];
                let mut progress = [1, 2, 3, 4];
                let answers = [
                    image::empty(&mut a, &mut o),
                    image::sound(&a, &o),
                    image::open_top(&mut a, &mut o, 1),
                    image::open_sub(&mut a, &mut o, 1, 64),
                    image::read(&mut a, &mut o, 64, 128),
                    image::write(&mut a, &mut o, 1, 1),
                    image::commit(&mut a, &mut o, 1),
                    image::abort(&mut a, &mut o, u32::MAX),
                    image::quiet(&mut a, &mut o, 1, 128),
                    image::load(&mut a, &mut o, b""),
                    image::load(&mut a, &mut o, b"110101ff\n"),
                    image::list(&mut a, &mut o, &mut [1; 4]),
                    image::play(&mut a, &mut o, &mut progress, b"0101\n", &mut out),
                    image::finish(&mut a, &mut o, &mut progress, &mut out),
                ];
                let at = format!("{many_actions} and {many_owners}");
                assert_eq!(answers, [7; 14], "{at}");
                assert_eq!(image::save(&a, &o, &mut out), (7, 0), "{at}");
                assert_eq!(image::text_size(&a, &o), (7, 0), "{at}");
                assert!(a == actions && o == owners && out == [0xaa; 6000] && progress == [1, 2, 3, 4], "changed, {at}");
            }
        }
    }
}

#[test]
fn another_length_of_progress_gets_7() {
    for many in [0, 1, 2, 3, 5, 8] {
        let (mut actions, mut owners, mut progress, mut out) = ([0; 128], [0; 256], vec![1; many], [0xaa; 30]);
        assert_eq!(image::play(&mut actions, &mut owners, &mut progress, b"0101\n", &mut out), 7);
        assert_eq!(image::finish(&mut actions, &mut owners, &mut progress, &mut out), 7);
        assert!(actions == [0; 128] && owners == [0; 256] && out == [0xaa; 30] && progress.iter().all(|&word| word == 1));
    }
}
