//! The crate with another library than the proved one, other_library.c beside this file. tests/boundary builds that, links these tests to it and runs them;
//! each needs its own version in OTHER_VERSION.

use dikothelm::{check_library, Answer, Bench, Player, Refusal, Request};

/// Every method gives `OtherLibrary`, and none panics.
fn assert_refused_by_all() {
    let mut bench = Bench::new();
    let other = Err(Refusal::OtherLibrary);
    for result in [bench.open_top(1), bench.open_sub(2, 1), bench.read(1, 5), bench.write(1, 5), bench.commit(1), bench.abort(1), bench.quiet(1, 5)] {
        assert_eq!(result, other);
        assert_eq!(Answer::from(result).number(), 255);
    }
    for length in [0, 1, 2, 33] {
        assert_eq!(bench.play_list(&mut [Request::open_top(1); 33][..length]), other);
    }
    assert_eq!(Bench::load(b""), Err(Refusal::OtherLibrary));
    assert_eq!(bench.text_size(), Err(Refusal::OtherLibrary));
    assert_eq!(bench.save(), Err(Refusal::OtherLibrary));
    assert_eq!(bench.save_into(&mut []), Err(Refusal::OtherLibrary));
    assert!(!bench.is_sound());
    assert!(format!("{bench:?}").starts_with("UnsoundBench"));
    for input in ["take nothing", "more than there is", "write too much", "nonsense"] {
        let mut player = Player::new();
        assert_eq!(player.feed(input.as_bytes()), Err(Refusal::OtherLibrary), "{input}");
        let failed = player.feed_into(input.as_bytes(), &mut Vec::new()).unwrap_err();
        assert_eq!(failed.to_string(), Refusal::OtherLibrary.to_string(), "{input}");
    }
    assert_eq!(Player::new().feed(b""), Ok(Vec::new()));
    assert_eq!(Player::new().finish(), Err(Refusal::OtherLibrary));
    assert!(Player::new().finish_into(&mut Vec::new()).is_err());
}

#[test]
#[ignore = "needs other_library.c with OTHER_VERSION=0x000500"]
fn of_another_version() {
    assert_eq!(check_library(), Err(Refusal::OtherLibrary));
    assert_eq!(
        Refusal::OtherLibrary.to_string(),
        "the linked libdikothelm.a, version 0.5.0, isn't the library that this crate, version 0.4.0, is for"
    );
    assert_refused_by_all();
}

#[test]
#[ignore = "needs other_library.c with OTHER_VERSION=0x000407"]
fn of_this_version_and_not_the_proved_one() {
    assert_eq!(check_library(), Ok(())); // another patch is no other version
    assert_refused_by_all();
}
