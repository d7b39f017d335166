//! Bad schedules in every way that document 01 names: a good one with one thing wrong.

use super::play::{self, hex, Draft};
use super::Expected::{self, Anything, Bad};
use super::Generated;
use crate::random::Random;
use second::sizes::{Sizes, MOST_IN_MESSAGE};

/// Puts one thing wrong and says what has to come of it; nothing where this draft does not allow it.
type Damage = fn(&mut Random, Draft) -> Option<(Vec<u8>, Expected)>;

const DAMAGES: &[(&str, Damage)] = &[
    ("bad: a wrong key", wrong_key),
    ("bad: a line is missing", missing_line),
    ("bad: the file ends after a line", ends_after_line),
    ("bad: the file ends anywhere", truncated),
    ("bad: a leading zero", leading_zero),
    ("bad: a number too big by one", too_big),
    ("bad: a number that would wrap", wraps),
    ("bad: a very long number", very_long),
    ("bad: not a number", not_a_number),
    ("bad: n out of its size", n_out_of_size),
    ("bad: f with 2f at least n", f_out_of_size),
    ("bad: more than f faulty", too_many_faulty),
    ("bad: an empty piece in a list", empty_piece),
    ("bad: faulty nodes do not ascend", faulty_descend),
    ("bad: tray entries do not ascend", entries_descend),
    ("bad: an entry twice", entry_twice),
    ("bad: more than 16 entries", too_many_entries),
    ("bad: an entry of two or four fields", fields),
    ("bad: a tray too many or too few", trays),
    ("bad: from is correct", from_correct),
    ("bad: from is n or more", from_nobody),
    ("bad: to is faulty", to_faulty),
    ("bad: to is n or more", to_nobody),
    ("bad: round 0", round_0),
    ("bad: round f + 2", round_too_late),
    ("bad: a send of three or five pieces", pieces),
    ("bad: odd hex", odd_hex),
    ("bad: upper-case hex", upper_case),
    ("bad: not hex", not_hex),
    ("bad: an empty message", empty_message),
    ("bad: a message of 3,961 bytes", message_too_long),
    ("bad: sends out of order", sends_out_of_order),
    ("bad: equal sends", equal_sends),
    ("bad: no LF at the end", no_last_lf),
    ("bad: something after the end", after_the_end),
    ("bad: end= with a value", end_with_value),
    ("bad: end= too early", end_early),
    ("bad: a file of 65,537 bytes or more", file_too_long),
    ("bad: 65,536 bytes with something after the end", just_short_enough),
    ("bad: an empty file", empty_file),
    ("bad: a blank line", blank_line),
    ("bad: CR LF", cr_lf),
    ("bad: a NUL byte", nul),
    ("bad: two lines", two_lines),
    ("bad: bytes at random", noise),
    ("damaged: a byte changed", byte_changed),
    ("damaged: a byte put in", byte_put_in),
    ("damaged: a byte left out", byte_left_out),
    ("damaged: a line twice", line_twice),
    ("damaged: two lines change places", lines_swapped),
    ("damaged: a line of another schedule", line_of_another),
    ("damaged: another n", another_n),
    ("damaged: another f", another_f),
    ("damaged: other faulty nodes", other_faulty),
    ("damaged: sends left out", sends_left_out),
    ("damaged: a message's digit changed", digit_changed),
    ("damaged: two messages change places", messages_swapped),
    ("damaged: a mask changed", mask_changed),
    ("damaged: another receiver", another_receiver),
    ("damaged: a round later or earlier", another_round),
];

pub fn damaged(random: &mut Random, turn: usize) -> Generated {
    let (kind, damage) = DAMAGES[turn % DAMAGES.len()];
    loop {
        let draft = play::rich(random).draft();
        if let Some((file, expected)) = damage(random, draft) {
            return Generated { kind, file, expected };
        }
    }
}

impl Draft {
    /// The file with this line put in place of another, which is bad there.
    fn bad_at(mut self, number: usize, line: impl Into<Vec<u8>>) -> Option<(Vec<u8>, Expected)> {
        self.lines[number - 1] = line.into();
        Some((self.file(), Bad(number)))
    }

    fn any_line(&self, random: &mut Random) -> usize {
        random.between(1, self.lines.len())
    }

    fn any_tray(&self, random: &mut Random) -> usize {
        random.between(4, 3 + self.sizes.n)
    }

    fn any_send(&self, random: &mut Random) -> usize {
        random.between(*self.sends().start(), *self.sends().end())
    }

    fn text(&self, number: usize) -> String {
        String::from_utf8(self.lines[number - 1].clone()).expect("a draft is plain text")
    }

    /// The key and the value of a line.
    fn halves(&self, number: usize) -> (String, String) {
        let text = self.text(number);
        let (key, value) = text.split_once('=').expect("each line has a key");
        (key.into(), value.into())
    }

    /// A send with one of its four pieces changed.
    fn bad_send(
        self,
        random: &mut Random,
        piece: usize,
        change: impl Fn(&mut Random, &str) -> String,
    ) -> Option<(Vec<u8>, Expected)> {
        let number = self.any_send(random);
        let (key, value) = self.halves(number);
        let mut pieces: Vec<String> = value.split(',').map(str::to_string).collect();
        pieces[piece] = change(random, &pieces[piece]);
        self.bad_at(number, format!("{key}={}", pieces.join(",")))
    }

    fn correct(&self) -> Vec<usize> {
        (0..self.sizes.n).filter(|node| !self.faulty.contains(node)).collect()
    }
}

/// A number in a line: which bytes it takes, and the greatest that may stand there.
struct Number {
    line: usize,
    start: usize,
    end: usize,
    most: u64,
}

fn any_number(random: &mut Random, draft: &Draft) -> Option<Number> {
    let line = draft.any_line(random);
    let text = draft.text(line);
    let (key, value) = text.split_once('=')?;
    let Sizes { n, f } = draft.sizes;
    let node = n as u64 - 1;
    let limits: &[u64] = match key {
        "n" => &[16],
        "f" => &[node / 2],
        "faulty" => &[node],
        "tray" => &[u16::MAX as u64, u16::MAX as u64, u32::MAX as u64],
        "send" => &[f as u64 + 1, node, node],
        _ => return None,
    };
    let mut numbers = Vec::new();
    let mut start = key.len() + 1;
    for (place, piece) in value.split([',', '.']).enumerate() {
        let end = start + piece.len();
        if !(piece.is_empty() || key == "send" && place > 2) {
            numbers.push(Number { line, start, end, most: limits[place % limits.len()] });
        }
        start = end + 1;
    }
    (!numbers.is_empty()).then(|| numbers.swap_remove(random.below(numbers.len())))
}

fn other_number(
    random: &mut Random,
    draft: Draft,
    change: impl Fn(&mut Random, &Number, &str) -> String,
) -> Option<(Vec<u8>, Expected)> {
    let number = any_number(random, &draft)?;
    let text = draft.text(number.line);
    let changed = change(random, &number, &text[number.start..number.end]);
    draft.bad_at(number.line, format!("{}{changed}{}", &text[..number.start], &text[number.end..]))
}

fn wrong_key(random: &mut Random, draft: Draft) -> Option<(Vec<u8>, Expected)> {
    let number = draft.any_line(random);
    let (key, value) = draft.halves(number);
    let other = *random.pick(&["n", "f", "faulty", "tray", "send", "end", "log", ""]);
    let line = match random.below(8) {
        0 => format!("{}={value}", key.to_uppercase()),
        1 => format!("{key} ={value}"),
        2 => format!(" {key}={value}"),
        3 => format!("{key}{value}"),
        4 => format!("{key}:{value}"),
        5 => format!("{key}=={value}"),
        6 => format!("{key}={key}={value}"),
        _ if other == key => return None,
        // `end=` in place of a send ends the schedule, and what follows is bad.
        _ if other == "end" && draft.sends().contains(&number) && value.is_empty() => return None,
        _ => format!("{other}={value}"),
    };
    draft.bad_at(number, line)
}

fn missing_line(random: &mut Random, mut draft: Draft) -> Option<(Vec<u8>, Expected)> {
    let number = draft.any_line(random);
    draft.lines.remove(number - 1);
    let last_tray = 3 + draft.sizes.n;
    let expected = match number {
        1..=3 => Bad(number),
        _ if number <= last_tray => Bad(last_tray),
        _ if number == draft.lines.len() + 1 => Bad(number),
        _ => Anything,
    };
    Some((draft.file(), expected))
}

fn ends_after_line(random: &mut Random, mut draft: Draft) -> Option<(Vec<u8>, Expected)> {
    let kept = random.below(draft.lines.len());
    draft.lines.truncate(kept);
    Some((draft.file(), Bad(kept + 1)))
}

fn truncated(random: &mut Random, draft: Draft) -> Option<(Vec<u8>, Expected)> {
    let mut file = draft.file();
    file.truncate(random.below(file.len()));
    let whole = file.iter().filter(|&&byte| byte == b'\n').count();
    Some((file, Bad(whole + 1)))
}

fn leading_zero(random: &mut Random, draft: Draft) -> Option<(Vec<u8>, Expected)> {
    other_number(random, draft, |random, _, digits| format!("{}{digits}", "0".repeat(random.between(1, 3))))
}

fn too_big(random: &mut Random, draft: Draft) -> Option<(Vec<u8>, Expected)> {
    other_number(random, draft, |random, number, _| (number.most + 1 + random.below(2) as u64).to_string())
}

fn wraps(random: &mut Random, draft: Draft) -> Option<(Vec<u8>, Expected)> {
    other_number(random, draft, |random, number, digits| {
        let width = match number.most {
            0..=255 => *random.pick(&[8, 16, 32, 64]),
            256..=65_535 => *random.pick(&[16, 32, 64]),
            _ => *random.pick(&[32, 64]),
        };
        (digits.parse::<u128>().expect("a number") + (1 << width)).to_string()
    })
}

fn very_long(random: &mut Random, draft: Draft) -> Option<(Vec<u8>, Expected)> {
    other_number(random, draft, |random, _, digits| {
        let length = *random.pick(&[11, 20, 21, 40, 100, 3000]);
        let digit = *random.pick(&["0", "1", "9"]);
        format!("{}{}{digits}", random.between(1, 9), digit.repeat(length))
    })
}

fn not_a_number(random: &mut Random, draft: Draft) -> Option<(Vec<u8>, Expected)> {
    other_number(random, draft, |random, _, digits| match random.below(8) {
        0 => format!("+{digits}"),
        1 => format!("-{digits}"),
        2 => format!(" {digits}"),
        3 => format!("{digits} "),
        4 => format!("{digits}\t"),
        5 => format!("0x{digits}"),
        6 => format!("{digits}{}", random.pick(&["a", "/", ":", ";", "\u{0663}"])),
        _ => random.pick(&["x", "/", ":", "-", "+", " "]).to_string(),
    })
}

fn n_out_of_size(random: &mut Random, draft: Draft) -> Option<(Vec<u8>, Expected)> {
    draft.bad_at(1, *random.pick(&["n=0", "n=17", "n=18", "n=32", "n=100", "n=", "n=256", "n=65537"]))
}

fn f_out_of_size(random: &mut Random, draft: Draft) -> Option<(Vec<u8>, Expected)> {
    let least = draft.sizes.n.div_ceil(2);
    let f = random.between(least, least + 3);
    draft.bad_at(2, format!("f={f}"))
}

fn too_many_faulty(random: &mut Random, draft: Draft) -> Option<(Vec<u8>, Expected)> {
    let Sizes { n, f } = draft.sizes;
    let mut faulty = random.shuffled((0..n).collect());
    faulty.truncate(random.between(f + 1, n));
    faulty.sort();
    draft.bad_at(3, format!("faulty={}", joined(&faulty)))
}

fn joined(nodes: &[usize]) -> String {
    nodes.iter().map(usize::to_string).collect::<Vec<_>>().join(",")
}

fn empty_piece(random: &mut Random, draft: Draft) -> Option<(Vec<u8>, Expected)> {
    let number = if random.chance(30) { 3 } else { draft.any_tray(random) };
    let (key, value) = draft.halves(number);
    let value = match random.below(3) {
        0 => format!(",{value}"),
        1 => format!("{value},"),
        _ if value.contains(',') => value.replacen(',', ",,", 1),
        _ => ",".into(),
    };
    draft.bad_at(number, format!("{key}={value}"))
}

fn faulty_descend(random: &mut Random, draft: Draft) -> Option<(Vec<u8>, Expected)> {
    let mut faulty = draft.faulty.clone();
    if draft.sizes.f < 2 || faulty.len() < 2 {
        return None;
    }
    let place = random.below(faulty.len() - 1);
    if random.chance(50) {
        faulty.swap(place, place + 1);
    } else {
        faulty[place + 1] = faulty[place];
    }
    draft.bad_at(3, format!("faulty={}", joined(&faulty)))
}

/// A tray of two entries or more, as its line's number and its pieces.
fn long_tray(random: &mut Random, draft: &Draft) -> Option<(usize, Vec<String>)> {
    let number = draft.any_tray(random);
    let pieces: Vec<String> = draft.halves(number).1.split(',').map(str::to_string).collect();
    (pieces.len() >= 2).then_some((number, pieces))
}

fn entries_descend(random: &mut Random, draft: Draft) -> Option<(Vec<u8>, Expected)> {
    let (number, mut pieces) = long_tray(random, &draft)?;
    let place = random.below(pieces.len() - 1);
    pieces.swap(place, place + 1);
    draft.bad_at(number, format!("tray={}", pieces.join(",")))
}

fn entry_twice(random: &mut Random, draft: Draft) -> Option<(Vec<u8>, Expected)> {
    let (number, mut pieces) = long_tray(random, &draft)?;
    let place = random.below(pieces.len() - 1);
    pieces[place + 1] = pieces[place].clone();
    draft.bad_at(number, format!("tray={}", pieces.join(",")))
}

fn too_many_entries(random: &mut Random, draft: Draft) -> Option<(Vec<u8>, Expected)> {
    let number = draft.any_tray(random);
    let count = *random.pick(&[17, 17, 18, 33, 100, 256, 272]);
    let entries: Vec<String> = (0..count).map(|watt_hours| format!("1.2.{watt_hours}")).collect();
    draft.bad_at(number, format!("tray={}", entries.join(",")))
}

fn fields(random: &mut Random, draft: Draft) -> Option<(Vec<u8>, Expected)> {
    let number = draft.any_tray(random);
    let line = *random.pick(&[
        "1",
        "1.2",
        "1.2.3.4",
        "1.2.3.",
        ".1.2.3",
        "1..3",
        "1.2.3..",
        ".",
        "..",
        "1.2.3,4",
        "1.2,3.4.5",
        "1.2.3;1.2.4",
    ]);
    draft.bad_at(number, format!("tray={line}"))
}

fn trays(random: &mut Random, mut draft: Draft) -> Option<(Vec<u8>, Expected)> {
    let (number, n) = (draft.any_tray(random), draft.sizes.n);
    if random.chance(50) {
        draft.lines.insert(number - 1, "tray=".into());
        Some((draft.file(), Bad(4 + n)))
    } else {
        draft.lines.remove(number - 1);
        Some((draft.file(), Bad(3 + n)))
    }
}

fn from_correct(random: &mut Random, draft: Draft) -> Option<(Vec<u8>, Expected)> {
    let correct = *random.pick(&draft.correct());
    draft.bad_send(random, 1, |_, _| correct.to_string())
}

fn from_nobody(random: &mut Random, draft: Draft) -> Option<(Vec<u8>, Expected)> {
    let nobody = draft.sizes.n + *random.pick(&[0, 1, 16, 256]);
    draft.bad_send(random, 1, |_, _| nobody.to_string())
}

fn to_faulty(random: &mut Random, draft: Draft) -> Option<(Vec<u8>, Expected)> {
    let faulty = *random.pick(&draft.faulty);
    draft.bad_send(random, 2, |_, _| faulty.to_string())
}

fn to_nobody(random: &mut Random, draft: Draft) -> Option<(Vec<u8>, Expected)> {
    let nobody = draft.sizes.n + *random.pick(&[0, 1, 16, 256]);
    draft.bad_send(random, 2, |_, _| nobody.to_string())
}

fn round_0(random: &mut Random, draft: Draft) -> Option<(Vec<u8>, Expected)> {
    draft.bad_send(random, 0, |_, _| "0".into())
}

fn round_too_late(random: &mut Random, draft: Draft) -> Option<(Vec<u8>, Expected)> {
    let late = draft.sizes.f + 2;
    draft.bad_send(random, 0, |_, _| late.to_string())
}

fn pieces(random: &mut Random, draft: Draft) -> Option<(Vec<u8>, Expected)> {
    let number = draft.any_send(random);
    let text = draft.text(number);
    let line = match random.below(5) {
        0 => format!("{text},"),
        1 => format!("{text},00"),
        2 => text.replacen(',', ".", 1),
        3 => text.rsplit_once(',')?.0.to_string(),
        _ => text.replacen(',', ",,", 1),
    };
    draft.bad_at(number, line)
}

fn odd_hex(random: &mut Random, draft: Draft) -> Option<(Vec<u8>, Expected)> {
    draft.bad_send(random, 3, |random, hex| if random.chance(50) { hex[1..].into() } else { format!("{hex}0") })
}

fn upper_case(random: &mut Random, draft: Draft) -> Option<(Vec<u8>, Expected)> {
    draft.bad_send(random, 3, |random, hex| {
        let place = random.below(hex.len());
        format!("{}{}{}", &hex[..place], random.pick(&["A", "B", "C", "D", "E", "F"]), &hex[place + 1..])
    })
}

fn not_hex(random: &mut Random, draft: Draft) -> Option<(Vec<u8>, Expected)> {
    draft.bad_send(random, 3, |random, hex| {
        let place = random.below(hex.len());
        format!("{}{}{}", &hex[..place], random.pick(&["g", "/", ":", "`", "@", "G", " ", "x", "."]), &hex[place + 1..])
    })
}

fn empty_message(random: &mut Random, draft: Draft) -> Option<(Vec<u8>, Expected)> {
    draft.bad_send(random, 3, |_, _| String::new())
}

fn message_too_long(random: &mut Random, draft: Draft) -> Option<(Vec<u8>, Expected)> {
    let size = MOST_IN_MESSAGE + *random.pick(&[1, 1, 2, 100]);
    draft.bad_send(random, 3, |_, _| "00".repeat(size))
}

fn sends_out_of_order(random: &mut Random, mut draft: Draft) -> Option<(Vec<u8>, Expected)> {
    let number = draft.any_send(random);
    if number == *draft.sends().end() {
        return None;
    }
    draft.lines.swap(number - 1, number);
    Some((draft.file(), Bad(number + 1)))
}

fn equal_sends(random: &mut Random, mut draft: Draft) -> Option<(Vec<u8>, Expected)> {
    let number = draft.any_send(random);
    let text = draft.text(number);
    let equal =
        if random.chance(50) { text } else { format!("{},{}", text.rsplit_once(',')?.0, hex(&random.any().to_le_bytes())) };
    draft.lines.insert(number, equal.into());
    Some((draft.file(), Bad(number + 1)))
}

fn no_last_lf(_: &mut Random, draft: Draft) -> Option<(Vec<u8>, Expected)> {
    let mut file = draft.file();
    file.pop();
    Some((file, Bad(draft.lines.len())))
}

fn after_the_end(random: &mut Random, draft: Draft) -> Option<(Vec<u8>, Expected)> {
    let after = *random.pick(&["\n", "x", "end=\n", "\0", " ", "\r\n", "send=1,0,1,00\n", "n=3\n", "\n\n\n"]);
    let file = [draft.file(), after.into()].concat();
    Some((file, Bad(draft.lines.len() + 1)))
}

fn end_with_value(random: &mut Random, draft: Draft) -> Option<(Vec<u8>, Expected)> {
    let number = draft.lines.len();
    draft.bad_at(number, *random.pick(&["end=x", "end= ", "end=0", "end==", "end", "end=\0", "endx", "send=", ""]))
}

fn end_early(random: &mut Random, mut draft: Draft) -> Option<(Vec<u8>, Expected)> {
    let number = draft.any_line(random);
    draft.lines.insert(number - 1, "end=".into());
    let bad = if number < *draft.sends().start() { number } else { number + 1 };
    Some((draft.file(), Bad(bad)))
}

fn file_too_long(random: &mut Random, draft: Draft) -> Option<(Vec<u8>, Expected)> {
    let mut file = draft.file();
    if random.chance(30) {
        file.clear();
    }
    file.resize(65_537 + *random.pick(&[0, 0, 1, 1000]), *random.pick(b"\n\0x"));
    Some((file, Bad(0)))
}

fn just_short_enough(random: &mut Random, draft: Draft) -> Option<(Vec<u8>, Expected)> {
    let mut file = draft.file();
    file.resize(65_536, *random.pick(b"\n\0x"));
    Some((file, Bad(draft.lines.len() + 1)))
}

fn empty_file(random: &mut Random, _: Draft) -> Option<(Vec<u8>, Expected)> {
    Some((if random.chance(50) { vec![] } else { vec![b'\n'] }, Bad(1)))
}

fn blank_line(random: &mut Random, mut draft: Draft) -> Option<(Vec<u8>, Expected)> {
    let number = random.between(1, draft.lines.len() + 1);
    draft.lines.insert(number - 1, Vec::new());
    Some((draft.file(), Bad(number)))
}

fn cr_lf(random: &mut Random, mut draft: Draft) -> Option<(Vec<u8>, Expected)> {
    if random.chance(30) {
        draft.lines.iter_mut().for_each(|line| line.push(b'\r'));
        return Some((draft.file(), Bad(1)));
    }
    let number = draft.any_line(random);
    draft.lines[number - 1].push(b'\r');
    Some((draft.file(), Bad(number)))
}

fn nul(random: &mut Random, draft: Draft) -> Option<(Vec<u8>, Expected)> {
    let mut file = draft.file();
    let place = random.below(file.len() + 1);
    let number = file[..place].iter().filter(|&&byte| byte == b'\n').count() + 1;
    file.insert(place, 0);
    Some((file, Bad(number)))
}

fn two_lines(random: &mut Random, mut draft: Draft) -> Option<(Vec<u8>, Expected)> {
    let (one, other) = (draft.any_line(random), draft.any_line(random));
    for number in [one, other] {
        draft.lines[number - 1].extend(b" ");
    }
    Some((draft.file(), Bad(one.min(other))))
}

fn noise(random: &mut Random, _: Draft) -> Option<(Vec<u8>, Expected)> {
    let length = random.below(200);
    let letters = b"nf=0123456789,.\nsendtrayfaulty";
    let text = random.chance(50);
    let file = (0..length).map(|_| if text { *random.pick(letters) } else { random.any() as u8 }).collect();
    Some((file, Anything))
}

fn some_byte(random: &mut Random) -> u8 {
    if random.chance(70) {
        *random.pick(b"0123456789abcdef,.=\n")
    } else {
        random.any() as u8
    }
}

fn byte_changed(random: &mut Random, draft: Draft) -> Option<(Vec<u8>, Expected)> {
    let mut file = draft.file();
    for _ in 0..random.between(1, 3) {
        let place = random.below(file.len());
        file[place] = some_byte(random);
    }
    Some((file, Anything))
}

fn byte_put_in(random: &mut Random, draft: Draft) -> Option<(Vec<u8>, Expected)> {
    let mut file = draft.file();
    file.insert(random.below(file.len() + 1), some_byte(random));
    Some((file, Anything))
}

fn byte_left_out(random: &mut Random, draft: Draft) -> Option<(Vec<u8>, Expected)> {
    let mut file = draft.file();
    file.remove(random.below(file.len()));
    Some((file, Anything))
}

fn line_twice(random: &mut Random, mut draft: Draft) -> Option<(Vec<u8>, Expected)> {
    let number = draft.any_line(random);
    draft.lines.insert(number, draft.lines[number - 1].clone());
    Some((draft.file(), Anything))
}

fn lines_swapped(random: &mut Random, mut draft: Draft) -> Option<(Vec<u8>, Expected)> {
    let (one, other) = (draft.any_line(random), draft.any_line(random));
    draft.lines.swap(one - 1, other - 1);
    Some((draft.file(), Anything))
}

fn line_of_another(random: &mut Random, mut draft: Draft) -> Option<(Vec<u8>, Expected)> {
    let other = play::rich(random).draft();
    let line = random.pick(&other.lines).clone();
    let number = draft.any_line(random);
    draft.lines[number - 1] = line;
    Some((draft.file(), Anything))
}

fn another_n(random: &mut Random, mut draft: Draft) -> Option<(Vec<u8>, Expected)> {
    let n = random.between(1, 16);
    draft.lines[0] = format!("n={n}").into();
    if random.chance(70) {
        // With as many trays as it takes, the sends are about another hall.
        let sends = draft.lines.split_off(3 + draft.sizes.n);
        draft.lines.resize(3 + n, "tray=7.7.7".into());
        draft.lines.extend(sends);
    }
    Some((draft.file(), Anything))
}

fn another_f(random: &mut Random, mut draft: Draft) -> Option<(Vec<u8>, Expected)> {
    let f = random.between(0, draft.sizes.n / 2);
    draft.lines[1] = format!("f={f}").into();
    Some((draft.file(), Anything))
}

fn other_faulty(random: &mut Random, mut draft: Draft) -> Option<(Vec<u8>, Expected)> {
    let mut faulty = random.shuffled((0..draft.sizes.n).collect());
    faulty.truncate(random.between(0, draft.sizes.f));
    faulty.extend(draft.faulty.iter().filter(|_| random.chance(70)));
    faulty.sort();
    faulty.dedup();
    draft.lines[2] = format!("faulty={}", joined(&faulty)).into();
    Some((draft.file(), Anything))
}

fn sends_left_out(random: &mut Random, mut draft: Draft) -> Option<(Vec<u8>, Expected)> {
    for number in draft.sends().rev() {
        if random.chance(30) {
            draft.lines.remove(number - 1);
        }
    }
    Some((draft.file(), Anything))
}

/// One hex digit of a message, so that it reads otherwise or not at all.
fn digit_changed(random: &mut Random, mut draft: Draft) -> Option<(Vec<u8>, Expected)> {
    let number = draft.any_send(random);
    let line = &mut draft.lines[number - 1];
    let start = line.iter().rposition(|&byte| byte == b',')? + 1;
    let place = random.between(start, line.len() - 1);
    line[place] = *random.pick(b"0123456789abcdef");
    Some((draft.file(), Anything))
}

/// Two sends with each other's message: other nodes hear what was meant for these, or in another round.
fn messages_swapped(random: &mut Random, mut draft: Draft) -> Option<(Vec<u8>, Expected)> {
    let (one, other) = (draft.any_send(random), draft.any_send(random));
    let (first, second) = (draft.text(one), draft.text(other));
    let ((first, its), (second, others)) = (first.rsplit_once(',')?, second.rsplit_once(',')?);
    draft.lines[one - 1] = format!("{first},{others}").into();
    draft.lines[other - 1] = format!("{second},{its}").into();
    Some((draft.file(), Anything))
}

/// One bit of the first record's mask.
fn mask_changed(random: &mut Random, draft: Draft) -> Option<(Vec<u8>, Expected)> {
    let flipped = 1u16 << random.below(draft.sizes.n + usize::from(draft.sizes.n < 16));
    let (file, _) = draft.bad_send(random, 3, |_, hex| {
        let Some(mask) = hex.get(4..8).and_then(|digits| u16::from_str_radix(digits, 16).ok()) else {
            return hex.into();
        };
        format!("{}{:04x}{}", &hex[..4], (mask.swap_bytes() ^ flipped).swap_bytes(), &hex[8..])
    })?;
    Some((file, Anything))
}

fn another_receiver(random: &mut Random, draft: Draft) -> Option<(Vec<u8>, Expected)> {
    let to = random.below(draft.sizes.n);
    let (file, _) = draft.bad_send(random, 2, |_, _| to.to_string())?;
    Some((file, Anything))
}

/// The last send moved to another round, which may be too early for what it shows.
fn another_round(random: &mut Random, mut draft: Draft) -> Option<(Vec<u8>, Expected)> {
    let number = if random.chance(60) { *draft.sends().end() } else { draft.any_send(random) };
    let round = random.between(1, draft.sizes.last_round());
    let text = draft.text(number);
    let rest = text.split_once(',')?.1;
    draft.lines[number - 1] = format!("send={round},{rest}").into();
    if random.chance(60) {
        let sends = draft.sends();
        let order = |line: &Vec<u8>| {
            let text = String::from_utf8_lossy(&line[5..]).into_owned();
            text.split(',').take(3).map(|piece| piece.parse().unwrap_or(0)).collect::<Vec<usize>>()
        };
        draft.lines[sends.start() - 1..*sends.end()].sort_by_key(order);
    }
    Some((draft.file(), Anything))
}
