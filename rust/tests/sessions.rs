//! The named sessions on both sides of each edge, and what the crate's types say in words.

use std::error::Error;

use dikothelm::{check_library, image, Answer, Bench, Player, Refusal, State, VERSION};

/// Plays a trace from an empty bench and compares the answers, in the order of the lines.
fn session(lines: &[(&str, u8)]) {
    let mut player = Player::new();
    for (turn, (line, answer)) in lines.iter().enumerate() {
        let said = player.feed(format!("{line}\n").as_bytes());
        assert_eq!(said, Ok(format!("{answer:02x}\n").into_bytes()), "line {turn}: {line}");
    }
}

#[test]
fn numbers_at_the_edges() {
    session(&[("030000", 4), ("030080", 2), ("034080", 1)]);
    session(&[("013f", 0), ("0140", 1)]);
    session(&[("020707", 4), ("0107", 0), ("020707", 3)]);
    let mut bench = Bench::new();
    assert_eq!(bench.read(0, 0), Err(Refusal::NotRunning));
    assert_eq!(bench.read(0, 128), Err(Refusal::NoSuchInstrument));
    assert_eq!(bench.read(64, 128), Err(Refusal::NoSuchAction));
    assert_eq!(bench.open_top(u32::MAX), Err(Refusal::NoSuchAction));
    assert_eq!(bench.open_sub(1, 256), Err(Refusal::NoSuchAction));
}

#[test]
fn two_tops() {
    session(&[("0101", 0), ("0109", 0), ("030105", 0), ("030905", 0), ("040105", 6)]);
    session(&[("0101", 0), ("0109", 0), ("04017f", 0), ("04097f", 6), ("040980", 2)]);
}

#[test]
fn the_whole_case() {
    session(&[
        ("0101", 0),
        ("020201", 0),
        ("020301", 0),
        ("040205", 0),
        ("030305", 6),
        ("0502", 0),
        ("030305", 0),
        ("040305", 0),
        ("0501", 5),
        ("0603", 0),
        ("040105", 6),
        ("0501", 0),
        ("0103", 3),
        ("070305", 0),
        ("0103", 0),
    ]);
}

#[test]
fn families() {
    session(&[("0101", 0), ("020201", 0), ("020301", 0), ("020403", 0), ("040205", 0), ("040405", 6), ("0502", 0), ("040405", 0)]);
    session(&[("0101", 0), ("020201", 0), ("030105", 5), ("0501", 5), ("0601", 0)]);
    session(&[("0101", 0), ("040105", 0), ("020201", 0), ("040205", 0), ("0602", 0), ("0109", 0), ("040905", 6)]);
    session(&[("0101", 0), ("020201", 0), ("0502", 0), ("0102", 3), ("0501", 0), ("0102", 0)]);
}

#[test]
fn draining() {
    session(&[("0101", 0), ("020201", 0), ("020302", 0), ("040305", 0), ("0503", 0), ("0602", 0), ("0109", 0), ("040905", 6)]);
    session(&[("0101", 0), ("020201", 0), ("040205", 0), ("0602", 0), ("040105", 6), ("070205", 0), ("040105", 0)]);
    session(&[("0101", 0), ("020201", 0), ("0601", 0), ("0101", 0), ("0102", 0)]);
    session(&[
        ("0101", 0),
        ("020201", 0),
        ("020301", 0),
        ("040205", 0),
        ("0601", 0),
        ("0103", 3),
        ("070205", 10),
        ("070104", 10),
        ("070105", 0),
        ("0103", 0),
    ]);
    session(&[("0101", 0), ("020201", 0), ("040205", 0), ("0602", 0), ("0601", 0), ("0101", 0), ("070205", 0), ("0102", 0)]);
    session(&[("0101", 0), ("030105", 0), ("0601", 0), ("0102", 0), ("030205", 0), ("040205", 6), ("020301", 4), ("030105", 4), ("0601", 4)]);
    session(&[("070000", 10), ("074080", 1), ("070080", 2)]);
    let mut bench = Bench::new();
    assert_eq!(bench.quiet(0, 0), Err(Refusal::NotDraining));
    assert_eq!(bench.quiet(64, 128), Err(Refusal::NoSuchAction));
    assert_eq!(bench.quiet(0, u32::MAX), Err(Refusal::NoSuchInstrument));
}

#[test]
fn answers_in_words() {
    let words = [
        "accepted",
        "no such action number",
        "no such instrument",
        "the number isn't free",
        "the acting number isn't running",
        "it has a running child",
        "not granted: an action that is no ancestor owns it",
        "the record isn't sound",
        "malformed",
        "the buffer is too short",
        "it isn't an aborted action that drains there",
        "the list is too long",
    ];
    for (number, said) in (0..=11).zip(words) {
        assert_eq!(Answer::try_from(number).map(|answer| answer.to_string()), Ok(said.to_string()));
    }
    for number in 0..=255 {
        assert_eq!(Answer::try_from(number).ok().map(Answer::number), (number <= 11).then_some(number));
        assert_eq!(Refusal::try_from(number).ok().map(Refusal::number), (1..=11).contains(&number).then_some(number));
        assert_eq!(State::try_from(number).ok().map(State::number), (number <= 3).then_some(number));
    }
    assert_eq!(Answer::try_from(12).unwrap_err().to_string(), "no answer has the number 12");
    assert_eq!(Refusal::try_from(255).unwrap_err().to_string(), "no refusal has the number 255");
    assert_eq!(State::try_from(4).unwrap_err().to_string(), "no state has the number 4");
    let refusal: Box<dyn Error> = Box::new(Refusal::NotGranted);
    assert_eq!(refusal.to_string(), "not granted: an action that is no ancestor owns it");
    assert_eq!(Result::<(), Refusal>::from(Answer::Accepted), Ok(()));
    assert_eq!(Result::<(), Refusal>::from(Answer::Refused(Refusal::NoRoom)), Err(Refusal::NoRoom));
}

#[test]
fn crate_and_library_are_of_one_version() {
    assert_eq!((image::version(), VERSION), (0x000400, 0x000400));
    assert_eq!(check_library(), Ok(()));
}

#[test]
fn debug_shows_who_owns_what() {
    let mut bench = Bench::new();
    assert_eq!(format!("{bench:?}"), "Bench { actions: {}, instruments: {} }");
    for result in [bench.open_top(1), bench.open_sub(2, 1), bench.open_sub(3, 1), bench.write(2, 5), bench.read(3, 127), bench.read(2, 127)] {
        assert_eq!(result, Ok(()));
    }
    assert_eq!(bench.commit(2), Ok(()));
    assert_eq!(
        format!("{bench:?}"),
        "Bench { actions: {1: running, 2: committed under 1, 3: running under 1}, \
         instruments: {5: written by 1 (from 2), 127: read by 1 (from 2) and 3} }"
    );
    assert_eq!(bench.read(3, 5), Ok(()));
    assert_eq!(
        format!("{bench:#?}"),
        "Bench {
    actions: {
        1: running,
        2: committed under 1,
        3: running under 1,
    },
    instruments: {
        5: read by 3, written by 1 (from 2),
        127: read by 1 (from 2) and 3,
    },
}"
    );
    assert_eq!(bench.abort(3), Ok(()));
    assert_eq!(
        format!("{bench:?}"),
        "Bench { actions: {1: running, 2: committed under 1, 3: draining}, \
         instruments: {5: read by 3, written by 1 (from 2), 127: read by 1 (from 2) and 3} }"
    );
    assert_eq!((bench.quiet(3, 127), bench.abort(1)), (Ok(()), Ok(())));
    assert_eq!(
        format!("{bench:?}"),
        "Bench { actions: {1: draining, 2: draining under 1, 3: draining}, \
         instruments: {5: read by 3, written by 1 (from 2), 127: read by 1 (from 2)} }"
    );
}

#[test]
fn an_unsound_record_can_be_held() {
    let (mut actions, mut owners) = ([0; 128], [0; 256]);
    actions[64] = 67;
    actions[1] = 200;
    actions[64 + 2] = 66;
    actions[3] = 3;
    actions[64 + 3] = 3 + 3;
    owners[128 + 7] = 1 << 5 | 1 << 2;
    let mut bench = Bench::from_image(actions, owners);
    assert!(!bench.is_sound());
    assert_eq!((bench.actions(), bench.owners()), (&actions, &owners));
    assert_eq!([0, 1, 2, 3].map(|n| bench.state(n)), [None, Some(State::Free), Some(State::Draining), Some(State::Draining)]);
    assert_eq!([0, 1, 2, 3].map(|n| bench.head(n)), [None, None, Some(63), Some(3)]);
    assert_eq!(bench.parent(1), Some(199));
    assert_eq!(bench.heir(1), None);
    assert_eq!(bench.heir(2), Some(63));
    assert_eq!(
        format!("{bench:?}"),
        "UnsoundBench { actions: {0: meaningless, 1: free under 199, 2: draining under 63, 3: draining, a child of 2}, \
         instruments: {7: written by 63 (from 2) and nobody (from 5)} }"
    );
    for result in
        [bench.open_top(64), bench.open_sub(1, 2), bench.read(0, 128), bench.write(0, 0), bench.commit(64), bench.abort(0), bench.quiet(64, 128)]
    {
        assert_eq!(result, Err(Refusal::Unsound));
    }
    assert_eq!((bench.actions(), bench.owners()), (&actions, &owners));
}

#[test]
fn a_bench_is_a_plain_value() {
    let mut bench = Bench::new();
    let before = bench.clone();
    assert_eq!(bench.open_top(1), Ok(()));
    assert_ne!(bench, before);
    assert_eq!(bench.abort(1), Ok(()));
    assert_eq!(bench, before);
    assert_eq!(std::mem::size_of::<Bench>(), 128 + 256 * 8);
    fn sent<T: Send + Sync>(_: &T) {}
    sent(&bench);
}
