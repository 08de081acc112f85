//! The player against the model's lines: any trace, cut anywhere.

use dikothelm::{image, Bench, Player};

use crate::draw::{self, Draw, Mix, MIXES};
use crate::plain::{Plain, Request};

/// The request of a line without its newline, if it has one.
fn request_of(line: &[u8]) -> Option<Request> {
    let digits: Option<Vec<u32>> = line
        .iter()
        .map(|&c| match c {
            b'0'..=b'9' => Some(u32::from(c - b'0')),
            b'a'..=b'f' => Some(u32::from(c - b'a') + 10),
            _ => None,
        })
        .collect();
    let digits = digits?;
    if digits.len() % 2 == 1 {
        return None;
    }
    let bytes: Vec<u32> = digits.chunks(2).map(|pair| pair[0] * 16 + pair[1]).collect();
    match bytes[..] {
        [1, n] => Some(Request::OpenTop(n)),
        [2, n, p] => Some(Request::OpenSub(n, p)),
        [3, a, i] => Some(Request::Read(a, i)),
        [4, a, i] => Some(Request::Write(a, i)),
        [5, a] => Some(Request::Commit(a)),
        [6, a] => Some(Request::Abort(a)),
        [7, a, i] => Some(Request::Quiet(a, i)),
        _ => None,
    }
}

fn line_of(request: Request) -> Vec<u8> {
    match request {
        Request::OpenTop(n) => format!("01{n:02x}"),
        Request::OpenSub(n, p) => format!("02{n:02x}{p:02x}"),
        Request::Read(a, i) => format!("03{a:02x}{i:02x}"),
        Request::Write(a, i) => format!("04{a:02x}{i:02x}"),
        Request::Commit(a) => format!("05{a:02x}"),
        Request::Abort(a) => format!("06{a:02x}"),
        Request::Quiet(a, i) => format!("07{a:02x}{i:02x}"),
    }
    .into_bytes()
}

/// A line that comes near a request, or doesn't.
fn spoilt(draw: &mut Draw, mut line: Vec<u8>) -> Vec<u8> {
    let place = draw.below(line.len());
    match draw.below(12) {
        0 => line.clear(),
        1 => line.push(b'\r'),
        2 => line[place] = draw.of(b"ABCDEFGg/:@` \t\x00\xff\r"),
        3 => drop(line.remove(place)),
        4 => line.insert(place, b'0'),
        5 => line.extend(b"00"),
        6 => line.truncate(2 + draw.below(3)),
        7 => line[..2].copy_from_slice(draw.of(&[b"00", b"08", b"10", b"11", b"ff"])),
        8 => line[1] = b'1' + draw.below(7) as u8,
        9 => line = vec![b'0'; draw.below(3000)],
        10 => line = (0..draw.below(40)).map(|_| draw.byte()).filter(|&byte| byte != b'\n').collect(),
        _ => line.extend(line.clone()),
    }
    line
}

/// A trace, and what is to be answered to it from an empty bench, with the machine after it.
fn trace(draw: &mut Draw, mix: &Mix, lines: usize, malformed: usize) -> (Vec<u8>, Vec<u8>, Plain) {
    let (mut input, mut answers, mut plain) = (Vec::new(), Vec::new(), Plain::empty());
    let mix = Mix { beyond_a_byte: false, ..mix.clone() };
    for turn in 0..lines {
        let mut line = line_of(draw::request(draw, &mix, &plain));
        if draw.one_in(malformed) {
            line = spoilt(draw, line);
        }
        let last_without_newline = turn + 1 == lines && draw.one_in(2);
        if last_without_newline && line.is_empty() {
            break;
        }
        let answer = request_of(&line).map_or(8, |request| plain.step(request));
        answers.extend(format!("{answer:02x}\n").into_bytes());
        input.extend(line);
        if !last_without_newline {
            input.push(b'\n');
        }
    }
    (input, answers, plain)
}

/// The bytes, cut at drawn places.
fn cut<'a>(draw: &mut Draw, input: &'a [u8], longest: usize) -> Vec<&'a [u8]> {
    let (mut pieces, mut rest) = (Vec::new(), input);
    while !rest.is_empty() {
        let (piece, after) = rest.split_at(draw.below(longest + 1).min(rest.len()));
        pieces.push(piece);
        rest = after;
    }
    pieces
}

#[test]
fn traces_cut_anywhere() {
    for seed in draw::seeds(40_000..40_200) {
        let mut draw = Draw::new(seed);
        let malformed = draw.of(&[2, 10, 50]);
        let (input, expected, plain) = trace(&mut draw, &MIXES[seed as usize % MIXES.len()], 600, malformed);
        let longest = draw.of(&[1, 3, 20, 500, 5000, 100_000]);
        let mut player = Player::new();
        let mut answers = Vec::new();
        for (turn, piece) in cut(&mut draw, &input, longest).into_iter().enumerate() {
            if turn % 2 == 0 {
                answers.extend(player.feed(piece).unwrap());
            } else {
                player.feed_into(piece, &mut answers).unwrap();
            }
        }
        if seed % 2 == 0 {
            answers.extend(player.finish().unwrap());
        } else {
            player.finish_into(&mut answers).unwrap();
        }
        assert!(answers == expected, "seed {seed}");
        plain.assert_agrees(player.bench(), &|| format!("seed {seed}, after the trace"));
        assert_eq!(player.finish(), Ok(Vec::new()), "seed {seed}");
        assert!(player.into_bench().is_sound(), "seed {seed}");
    }
}

#[test]
fn small_buffers() {
    for seed in draw::seeds(41_000..41_200) {
        let mut draw = Draw::new(seed);
        let (input, expected, _) = trace(&mut draw, &MIXES[seed as usize % MIXES.len()], 100, 10);
        let (mut actions, mut owners, mut progress, mut answers) = ([0; 128], [0; 256], [0; 4], Vec::<u8>::new());
        let mut at = 0;
        while at < input.len() {
            let room = if draw.one_in(4) { draw.below(3) } else { draw.below(40) };
            let lent = &input[at..at + draw.below(input.len() - at + 1)];
            let mut out = vec![0xaa; room];
            let before = (actions, owners, progress[0], progress[1]);
            assert_eq!(image::play(&mut actions, &mut owners, &mut progress, lent, &mut out), 0, "seed {seed}");
            let (taken, written) = (progress[2] as usize, progress[3] as usize);
            assert_eq!(taken, lent.len().min(room / 3), "seed {seed}");
            assert_eq!(written, 3 * lent[..taken].iter().filter(|&&byte| byte == b'\n').count(), "seed {seed}");
            assert!(out[written..].iter().all(|&byte| byte == 0xaa), "seed {seed}: wrote behind its answers");
            assert!(taken > 0 || before == (actions, owners, progress[0], progress[1]), "seed {seed}: took nothing and changed something");
            answers.extend(&out[..written]);
            at += taken;
            assert_eq!(progress[0] == 0, at == 0 || input[at - 1] == b'\n', "seed {seed}: a line that has begun, after {at} bytes");
        }
        let mut out = [0xaa; 3];
        assert_eq!(image::finish(&mut actions, &mut owners, &mut progress, &mut out), 0, "seed {seed}");
        answers.extend(&out[..progress[3] as usize]);
        assert!(answers == expected, "seed {seed}");
    }
}

#[test]
fn an_unsound_bench() {
    for seed in 42_000..42_050 {
        let mut draw = Draw::new(seed);
        let (input, _, _) = trace(&mut draw, &MIXES[seed as usize % MIXES.len()], 100, 4);
        let mut bench = Bench::from_image([0; 128], [0; 256]);
        while bench.is_sound() {
            let (mut actions, mut owners) = ([0; 128], [0; 256]);
            actions[draw.below(128)] = draw.byte();
            owners[draw.below(256)] = draw.word();
            bench = Bench::from_image(actions, owners);
        }
        let mut player = Player::on(bench.clone());
        let mut answers = player.feed(&input).unwrap();
        answers.extend(player.finish().unwrap());
        let lines = input.strip_suffix(b"\n").unwrap_or(&input).split(|&byte| byte == b'\n');
        let expected: Vec<u8> = lines.flat_map(|line| if request_of(line).is_some() { *b"07\n" } else { *b"08\n" }).collect();
        assert!(answers == expected, "seed {seed}");
        assert!(*player.bench() == bench, "seed {seed}: refused and changed");
    }
}

/// A request with any number of zeros before it or behind it is no request, and a long line of anything isn't either.
#[test]
fn long_lines() {
    let mut player = Player::new();
    for many in (1..600).chain(65_500..65_600).chain([1 << 20, (1 << 20) + 252]) {
        let filled = |byte: u8| vec![byte; many];
        for line in [[&filled(b'0')[..], b"0107"].concat(), [b"0107", &filled(b'0')[..]].concat(), [b"010703", &filled(b'0')[..]].concat()] {
            assert_eq!(player.feed(&[&line[..], b"\n030705\n0507\n"].concat()).unwrap(), b"08\n04\n04\n", "{many} zeros");
        }
        for byte in [b'f', b'\r', 0, 0x80, 0xff] {
            assert_eq!(player.feed(&[&filled(byte)[..], b"\n"].concat()).unwrap(), b"08\n", "{many} times {byte}");
        }
    }
    assert!(*player.bench() == Bench::new());
}

/// Frames that a bench with 1 running and 2 draining at instrument 6 would all accept.
const FRAMES: [&[u8]; 7] = [b"0107", b"020701", b"030105", b"040105", b"0501", b"0601", b"070206"];

/// A bench with 1 running and 2 draining at instrument 6, and its machine.
fn with_1_running() -> (Bench, Plain) {
    let (mut bench, mut plain) = (Bench::new(), Plain::empty());
    for request in [Request::OpenTop(1), Request::OpenTop(2), Request::Write(2, 6), Request::Abort(2)] {
        assert_eq!((request.asked_of(&mut bench), plain.step(request)), (0, 0));
    }
    (bench, plain)
}

/// Plays one line on such a bench, with its newline or without, and checks answer and bench.
fn assert_answered(line: &[u8], ended: bool) -> u8 {
    let (bench, mut plain) = with_1_running();
    let expected = request_of(line).map_or(8, |request| plain.step(request));
    let mut player = Player::on(bench);
    let mut said = player.feed(line).unwrap();
    said.extend(if ended { player.feed(b"\n") } else { player.finish() }.unwrap());
    assert_eq!(said, format!("{expected:02x}\n").into_bytes(), "{:?}", String::from_utf8_lossy(line));
    plain.assert_agrees(player.bench(), &|| format!("after {:?}", String::from_utf8_lossy(line)));
    expected
}

/// Lines that come near a request: each with its newline, and as a last line without it.
#[test]
fn lines_that_look_right() {
    for line in
        ["010A", "010a0", "03010500", "0301 05", " 030105", "030105 ", "030105\r", "0x0107", "1", "01", "010", "03015", "0701", "00", "0101ff", "FF"]
    {
        for ended in [true, false] {
            assert_eq!(assert_answered(line.as_bytes(), ended), 8, "{line}");
        }
    }
    for frame in FRAMES {
        for digits in [8, 10, 256, 258, 260, 262, 512, 516, 518, 65_540, 65_542] {
            let mut line = frame.to_vec();
            line.resize(digits, b'0');
            assert_eq!(assert_answered(&line, digits % 4 == 0), 8, "padded to {digits} digits");
        }
    }
}

/// Every byte in the place of every digit of every frame, and before and behind it.
#[test]
fn every_byte_in_every_frame() {
    let mut accepted = 0;
    for frame in FRAMES {
        for byte in (0..=255).filter(|&byte| byte != b'\n') {
            for place in 0..=frame.len() {
                let mut longer = frame.to_vec();
                longer.insert(place, byte);
                assert_eq!(assert_answered(&longer, byte % 2 == 0), 8);
                if place < frame.len() {
                    let mut changed = frame.to_vec();
                    changed[place] = byte;
                    accepted += u32::from(assert_answered(&changed, byte % 2 == 1) == 0);
                }
            }
        }
    }
    assert!(accepted > 100, "{accepted}");
}

/// The end of the input in every state of a line, on a sound and on an unsound bench, with any room.
#[test]
fn the_end_of_the_input() {
    let unsound = Bench::from_image([0; 128], [1; 256]);
    let lines = FRAMES.iter().copied().chain([&b""[..], b"x", b"\0", b"\xff", b"0", b"01078", b"0301050", b"03010500"]);
    for line in lines.flat_map(|line| (0..=line.len()).map(move |long| &line[..long])) {
        for sound in [true, false] {
            let (bench, mut plain) = with_1_running();
            let bench = if sound { bench } else { unsound.clone() };
            let answer = match request_of(line) {
                Some(request) if sound => plain.step(request),
                Some(_) => 7,
                None => 8,
            };
            let at = || format!("{:?}, sound: {sound}", String::from_utf8_lossy(line));
            let (mut actions, mut owners, mut progress) = (*bench.actions(), *bench.owners(), [0; 4]);
            assert_eq!(image::play(&mut actions, &mut owners, &mut progress, line, &mut [0xaa; 60]), 0, "{}", at());
            assert_eq!((progress[2], progress[3], progress[0] != 0), (line.len() as u64, 0, !line.is_empty()), "{}", at());
            for room in 0..3 {
                let (begun, mut out) = ([progress[0], progress[1], 0, 0], vec![0xaa; room]);
                assert_eq!(image::finish(&mut actions, &mut owners, &mut progress, &mut out), 0, "{}", at());
                assert_eq!(progress, begun, "room for {room}, {}", at());
                assert!(Bench::from_image(actions, owners) == bench && out == vec![0xaa; room], "room for {room}, {}", at());
            }
            let mut expected = [0xaa; 5];
            if !line.is_empty() {
                expected[..3].copy_from_slice(format!("{answer:02x}\n").as_bytes());
            }
            let mut out = [0xaa; 5];
            assert_eq!(image::finish(&mut actions, &mut owners, &mut progress, &mut out), 0, "{}", at());
            assert_eq!((progress, out), ([0, 0, 0, if line.is_empty() { 0 } else { 3 }], expected), "{}", at());
            let after = Bench::from_image(actions, owners);
            if sound {
                plain.assert_agrees(&after, &at);
            } else {
                assert!(after == unsound, "{}", at());
            }
            assert_eq!(image::finish(&mut actions, &mut owners, &mut progress, &mut out), 0, "{}", at());
            assert!(Bench::from_image(actions, owners) == after && progress == [0; 4] && out == expected, "ended twice, {}", at());
        }
    }
}

/// A writer that takes only so many bytes.
struct Full(usize);

impl std::io::Write for Full {
    fn write(&mut self, bytes: &[u8]) -> std::io::Result<usize> {
        let taken = bytes.len().min(self.0);
        self.0 -= taken;
        Ok(taken)
    }

    fn flush(&mut self) -> std::io::Result<()> {
        Ok(())
    }
}

#[test]
fn a_writer_that_fails() {
    let mut player = Player::new();
    assert!(player.feed_into(b"0101\n0102\n", &mut Full(6)).is_ok());
    assert!(player.feed_into(b"0103\n0104\n", &mut Full(5)).is_err());
}
