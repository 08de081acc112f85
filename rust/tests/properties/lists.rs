//! Lists of requests in one call: against the plain machine, and beside single calls on records of anything.

use dikothelm::{image, Answer, Bench, Refusal, Request, LONGEST_LIST};

use crate::draw::{self, Draw, MIXES};
use crate::images::changed_forest;
use crate::plain::{self, Plain};
use crate::record::Record;

/// Kinds that no request has. Some have a request's as their low byte or their low half.
const NO_KINDS: [u32; 10] = [0, 8, 9, 255, 256, u32::MAX, 256 + 3, 0xffff_ff04, 0x0001_0001, 0x8000_0007];

/// A request as a list has it. A number that its kind doesn't need is anything, and so is what its place holds before.
fn sent(draw: &mut Draw, request: plain::Request) -> Request {
    use plain::Request::*;
    let (x, y) = match request {
        OpenTop(a) | Commit(a) | Abort(a) => (a, draw.word() as u32),
        OpenSub(x, y) | Read(x, y) | Write(x, y) | Quiet(x, y) => (x, y),
    };
    Request { kind: request.kind() as u32, x, y, answer: draw.word() as u32 }
}

/// A list that the machine's state makes worth sending, as it comes and with the machine's answers. The machine is asked as the list is drawn.
fn drawn(draw: &mut Draw, plain: &mut Plain, length: usize) -> (Vec<Request>, Vec<Request>) {
    let mix = &MIXES[draw.below(MIXES.len())];
    let mut list = Vec::new();
    let mut answered = Vec::new();
    for _ in 0..length {
        let request = draw::request(draw, mix, plain);
        let mut one = sent(draw, request);
        let answer = if draw.one_in(12) {
            one.kind = draw.of(&NO_KINDS);
            8
        } else {
            plain.step(request)
        };
        list.push(one);
        answered.push(Request { answer: answer.into(), ..one });
    }
    (list, answered)
}

/// What single calls in its order make of a list.
fn single_calls(bench: &mut Bench, list: &[Request]) -> Vec<Request> {
    let mut ask = |&Request { kind, x, y, .. }: &Request| match kind {
        1 => bench.open_top(x),
        2 => bench.open_sub(x, y),
        3 => bench.read(x, y),
        4 => bench.write(x, y),
        5 => bench.commit(x),
        6 => bench.abort(x),
        7 => bench.quiet(x, y),
        _ => Err(Refusal::Malformed),
    };
    list.iter().map(|one| Request { answer: Answer::from(ask(one)).number().into(), ..*one }).collect()
}

#[test]
fn against_the_plain_machine() {
    let mut tally = [0; 12];
    for seed in draw::seeds(20_000..20_700) {
        let mut draw = Draw::new(seed);
        let record = if seed % 2 == 0 { Record::empty() } else { draw::forest(&mut draw) };
        let (mut bench, mut plain) = (record.bench(), Plain::of(&record));
        for turn in 0..12 {
            let at = || format!("seed {seed}, list {turn}");
            let length = draw.below(LONGEST_LIST + 1);
            let (mut list, expected) = drawn(&mut draw, &mut plain, length);
            assert_eq!(bench.play_list(&mut list), Ok(()), "{}", at());
            assert_eq!(list, expected, "{}", at());
            plain.assert_agrees(&bench, &at);
            list.iter().for_each(|one| tally[one.answer as usize] += 1);
        }
    }
    for (answer, got) in tally.into_iter().enumerate() {
        assert_eq!(got > 200 / draw::one_seed_of(), [0, 1, 2, 3, 4, 5, 6, 8, 10].contains(&answer), "answer {answer} {got} times");
    }
}

/// Records that are most often unsound, and the words behind the last whole request.
#[test]
fn beside_single_calls_on_any_record() {
    let mut unsound = 0;
    for seed in draw::seeds(21_000..24_000) {
        let mut draw = Draw::new(seed);
        let record = changed_forest(&mut draw);
        unsound += u32::from(!record.sound());
        let mut asked = record.bench();
        let length = draw.below(LONGEST_LIST + 1);
        let (list, _) = drawn(&mut draw, &mut Plain::empty(), length);
        let expected = single_calls(&mut asked, &list);
        let mut bench = record.bench();
        let mut played = list.clone();
        assert_eq!(bench.play_list(&mut played), Ok(()), "seed {seed}");
        assert!(played == expected && bench == asked, "seed {seed}");

        let words_of = |list: &[Request]| list.iter().flat_map(|one| [one.kind, one.x, one.y, one.answer]).collect::<Vec<u32>>();
        let spare = &[1, 63, 0][..draw.below(4)];
        let (mut actions, mut owners) = (*record.bench().actions(), *record.bench().owners());
        let mut words = [&words_of(&list), spare].concat();
        assert_eq!(image::list(&mut actions, &mut owners, &mut words), 0, "seed {seed}");
        assert_eq!(words, [&words_of(&expected), spare].concat(), "seed {seed}");
        assert!(Bench::from_image(actions, owners) == asked, "seed {seed}");
    }
    assert!((500 / draw::one_seed_of()..2_500 / draw::one_seed_of()).contains(&unsound), "{unsound}");
}

/// 0, 1, 31, 32, 33 and 1,000 requests, on a sound record, an unsound one, and slices that are no record.
#[test]
fn lengths() {
    let mut unsound = Bench::new().owners().to_owned();
    unsound[0] = 1;
    for length in [0, 1, 31, 32, 33, 1000] {
        let list = vec![Request::open_top(1); length];
        let too_long = length > LONGEST_LIST;
        for (owners, first, others) in [([0; 256], 0, 3), (unsound, 7, 7)] {
            let before = Bench::from_image([0; 128], owners);
            let (mut bench, mut played) = (before.clone(), list.clone());
            if too_long {
                assert_eq!(bench.play_list(&mut played), Err(Refusal::TooLong));
                assert!(played == list && bench == before);
                continue;
            }
            assert_eq!(bench.play_list(&mut played), Ok(()));
            assert_eq!(bench == before, first != 0 || length == 0);
            for (place, one) in played.iter().enumerate() {
                assert_eq!(*one, Request { answer: if place == 0 { first } else { others }, ..list[place] });
            }
        }
        for (many_actions, many_owners) in [(0, 0), (127, 256), (128, 255), (129, 256), (128, 257)] {
            let (mut actions, mut owners) = (vec![0; many_actions], vec![0; many_owners]);
            let mut words = vec![1; 4 * length];
            assert_eq!(image::list(&mut actions, &mut owners, &mut words), if too_long { 11 } else { 7 });
            assert!(actions.iter().all(|&byte| byte == 0) && owners.iter().all(|&word| word == 0) && words.iter().all(|&word| word == 1));
        }
    }
}
