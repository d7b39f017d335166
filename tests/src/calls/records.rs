//! The reader and the writer of records, and the reader of messages.

use super::batches::{batch_of, disordered, some_batch};
use super::call::{Answer, Call, Lent};
use super::messages::{filled, some_message, some_vote, Vote, DAMAGES, MOST_IN_MESSAGE};
use super::run::{Held, Run};
use super::show;
use super::sizes::{all_bits, every_n, Sizes, HUGE};
use super::states::Scene;
use crate::random::Random;
use second::calls::{self, MessageReading, RecordReading};

/// n and some bytes: what the three readers are handed.
#[derive(Clone, PartialEq)]
pub struct Part {
    pub n: u64,
    pub bytes: Vec<u8>,
}

impl Part {
    fn smaller(&self) -> Vec<Part> {
        show::cuts(&self.bytes).into_iter().map(|bytes| Part { n: self.n, bytes }).collect()
    }

    fn show(&self) -> String {
        format!("n {}, {}", self.n, show::bytes(&self.bytes))
    }
}

/// The three readers have the same inputs and change nothing.
macro_rules! reader {
    ($call:ident, $name:literal, $values:expr, $proved:expr, $second:expr) => {
        #[derive(Clone, PartialEq)]
        pub struct $call(pub Part);

        impl Call for $call {
            const NAME: &'static str = $name;
            const VALUES: &'static [&'static str] = $values;
            const ROWS: &'static [u64] = &[1];

            fn lent(&self) -> Lent {
                Lent::default()
            }

            fn proved(&self, _: &mut Lent) -> Answer {
                let proved: fn(&Part) -> Answer = $proved;
                proved(&self.0)
            }

            fn second(&self, _: &mut Lent) -> Answer {
                let second: fn(&Part) -> Answer = $second;
                second(&self.0)
            }

            fn smaller(&self) -> Vec<$call> {
                self.0.smaller().into_iter().map($call).collect()
            }

            fn show(&self) -> String {
                self.0.show()
            }
        }
    };
}

reader!(
    ReadRecord,
    "read_record",
    &["readable", "primary", "mask", "count", "next"],
    |part| {
        let told = raudokiin::calls::read_record(part.n as usize, &part.bytes);
        let values = [told.readable.into(), told.primary as u64, told.mask.into(), told.count as u64, told.next as u64];
        Answer::new(told.number, &values)
    },
    |part| match calls::read_record(part.n, &part.bytes) {
        RecordReading::Refused(number) => Answer::new(number, &[0; 5]),
        RecordReading::Unreadable => Answer::new(0u64, &[0; 5]),
        RecordReading::Vote { primary, mask, count, next } => Answer::new(0u64, &[1, primary, mask.into(), count, next]),
    }
);

reader!(
    BatchBytes,
    "batch_bytes",
    &["start", "size"],
    |part| {
        let batch = raudokiin::calls::batch_bytes(part.n as usize, &part.bytes);
        // The call itself tells no number; the record's reader does, of the same bytes.
        let number = raudokiin::calls::read_record(part.n as usize, &part.bytes).number;
        Answer::new(number, &[batch.start as u64, batch.size as u64])
    },
    |part| {
        let batch = calls::batch_bytes(part.n, &part.bytes);
        let start = batch.as_ptr() as usize - part.bytes.as_ptr() as usize;
        let number = match calls::read_record(part.n, &part.bytes) {
            RecordReading::Refused(number) => number,
            _ => 0,
        };
        Answer::new(number, &[start as u64, batch.len() as u64])
    }
);

reader!(
    ReadMessage,
    "read_message",
    &["readable", "votes"],
    |part| {
        let told = raudokiin::calls::read_message(part.n as usize, &part.bytes);
        Answer::new(told.number, &[told.readable.into(), told.votes as u64])
    },
    |part| match calls::read_message(part.n, &part.bytes) {
        MessageReading::Refused(number) => Answer::new(number, &[0; 2]),
        MessageReading::Unreadable => Answer::new(0u64, &[0; 2]),
        MessageReading::Votes(votes) => Answer::new(0u64, &[1, votes]),
    }
);

#[derive(Clone, PartialEq)]
pub struct WriteRecord {
    pub n: u64,
    pub primary: u64,
    pub mask: u16,
    pub entries: Vec<u64>,
    pub room: usize,
}

impl Call for WriteRecord {
    const NAME: &'static str = "write_record";
    const VALUES: &'static [&'static str] = &["size"];
    const ROWS: &'static [u64] = &[1, 2, 9];

    fn lent(&self) -> Lent {
        Lent::default().with_bytes(self.room)
    }

    fn proved(&self, lent: &mut Lent) -> Answer {
        let (n, primary) = (self.n as usize, self.primary as usize);
        let told = raudokiin::calls::write_record(n, primary, self.mask, &self.entries, lent.lent_bytes());
        Answer::new(told.number, &[told.size as u64])
    }

    fn second(&self, lent: &mut Lent) -> Answer {
        let told = calls::write_record(self.n, self.primary, self.mask, &self.entries, lent.lent_bytes());
        Answer::new(told.number, &[told.value])
    }

    fn smaller(&self) -> Vec<WriteRecord> {
        let entries = show::cuts(&self.entries).into_iter().map(|entries| WriteRecord { entries, ..self.clone() });
        let rooms = show::lower_room(self.room).into_iter().map(|room| WriteRecord { room, ..self.clone() });
        entries.chain(rooms).collect()
    }

    fn show(&self) -> String {
        let entries = show::entries(&self.entries);
        format!("n {}, primary {}, mask {:#x}, {entries}, room for {} bytes", self.n, self.primary, self.mask, self.room)
    }
}

/// All three readers on one part; the record's reader is handed what follows the record too.
fn read(run: &mut Run, kind: &'static str, n: u64, bytes: &[u8]) -> Held {
    let part = Part { n, bytes: bytes.to_vec() };
    run.hold(kind, &ReadRecord(part.clone()))?;
    run.hold(kind, &BatchBytes(part.clone()))?;
    run.hold(kind, &ReadMessage(part))?;
    Ok(())
}

/// Every n; every cut of a message of three records; every count; every primary and mask bit at every n; messages of
/// every length around the limit.
pub fn reader_boundaries(run: &mut Run) -> Held {
    let three: Vec<u8> =
        [(0, 1, 3), (1, 3, 1), (1, 2, 0)].iter().flat_map(|&(primary, mask, count)| counted(primary, mask, count)).collect();
    for n in every_n() {
        read(run, "every n", n, &three)?;
        read(run, "every n, nothing to read", n, &[])?;
    }
    for end in 0..three.len() {
        read(run, "a message cut at each place", 2, &three[..end])?;
    }
    for count in 0..=255 {
        let record = counted(0, 1, count);
        read(run, "every count, all bytes there", 2, &record)?;
        read(run, "every count, one byte missing", 2, &record[..record.len() - 1])?;
        read(run, "every count, one byte more", 2, &[record, vec![0]].concat())?;
    }
    for n in 1..=16 {
        for primary in (0..=17).chain([255]) {
            read(run, "every primary at every n", n, &counted(primary, 1, 1))?;
        }
        for bit in 0..16 {
            read(run, "every mask bit at every n", n, &counted(0, 1 << bit, 1))?;
        }
    }
    for length in (3940..=3980).chain([4092, 4096, 65_532, 65_536, 70_000]) {
        read(run, "a message of heads of each length", 1, &vec![0; length])?;
    }
    Ok(())
}

/// A record of so many entries, ascending by one.
fn counted(primary: u8, mask: u16, count: u8) -> Vec<u8> {
    let mut record = vec![primary, count];
    record.extend(mask.to_le_bytes());
    (0..u64::from(count)).for_each(|entry| record.extend((entry + 5).to_be_bytes()));
    record
}

pub fn compare_readers(run: &mut Run, random: &mut Random, turn: usize) -> Held {
    let scene = Scene::some(random, |random, f| random.between(1, f as usize + 1) as u64);
    let n = scene.sizes.n;
    let message = some_message(random, &scene);
    read(run, "a readable message", n, &message)?;
    read(run, "read at another n", random.between(1, 16) as u64, &message)?;
    let broken = if random.chance(50) { *random.pick(&HUGE) } else { *random.pick(&[0, 17]) };
    read(run, "n breaks the sizes", broken, &message)?;
    let damage = &DAMAGES[turn % DAMAGES.len()];
    let damaged = (damage.make)(random, &scene, message);
    read(run, damage.name, n, &damaged)?;
    let told = run.hold(damage.name, &ReadMessage(Part { n, bytes: damaged }))?;
    assert!(!damage.surely || told.answer.values[0] == 0, "{}: the generator's own damage is readable", damage.name);
    if turn % 16 == 0 {
        read(run, "a message of 3,960 bytes", n, &filled(random, &scene, MOST_IN_MESSAGE))?;
        read(run, "a message of 3,964 bytes", n, &filled(random, &scene, MOST_IN_MESSAGE + 4))?;
    }
    Ok(())
}

/// Every n and primary; every mask bit at every n; every count with every length of the output up to two more.
pub fn writer_boundaries(run: &mut Run) -> Held {
    let vote = WriteRecord { n: 3, primary: 1, mask: 0b101, entries: vec![4, 9], room: 30 };
    for n in every_n() {
        for primary in (0..=17).chain(HUGE) {
            let number = if !(1..=16).contains(&n) { 1 } else { 2 * u64::from(primary >= n) };
            run.expect("every n and primary", number, &WriteRecord { n, primary, mask: 1, ..vote.clone() })?;
        }
    }
    for n in 1..=16 {
        for bit in 0..16 {
            let number = 2 * u64::from(bit >= n);
            run.expect("every mask bit at every n", number, &WriteRecord { n, primary: 0, mask: 1 << bit, ..vote.clone() })?;
        }
    }
    for count in 0..=16 {
        let entries: Vec<u64> = (0..count).map(|entry| entry << 40 | 7).collect();
        let size = 4 + 8 * count as usize;
        for room in 0..=size + 2 {
            let number = if room < size { 9 } else { 0 };
            run.expect("an output of each length", number, &WriteRecord { entries: entries.clone(), room, ..vote.clone() })?;
        }
    }
    for count in [17, 18, 32, 255, 256, 257, 4096] {
        for room in [0, 140, 4 + 8 * count as usize] {
            let entries = (0..count).collect();
            run.expect("17 entries and more", 2, &WriteRecord { entries, room, ..vote.clone() })?;
        }
    }
    Ok(())
}

pub fn compare_writer(run: &mut Run, random: &mut Random, _: usize) -> Held {
    let scene = Scene::some(random, |random, f| random.between(1, f as usize + 1) as u64);
    let Sizes { n, .. } = scene.sizes;
    let Vote { primary, mask, batch } = some_vote(random, &scene);
    let size = 4 + 8 * batch.len();
    let vote = WriteRecord { n, primary: primary as u64, mask, entries: batch, room: size + random.below(9) };
    let written = run.expect("a vote that can be said", 0, &vote)?;
    read(run, "a record that was written", n, written.lent.bytes())?;
    run.expect("an output one byte short", 9, &WriteRecord { room: size - 1, ..vote.clone() })?;
    let batch = some_batch(random);
    let entries = disordered(random, batch);
    run.expect("entries that do not ascend", 2, &WriteRecord { entries, room: 200, ..vote.clone() })?;
    let seventeen = batch_of(random, 17);
    run.expect("row 2 before row 9", 2, &WriteRecord { entries: seventeen, room: random.below(140), ..vote.clone() })?;
    if n < 16 {
        let above = random.some_of(!all_bits(n)) | 1 << random.between(n as usize, 15);
        run.expect("a mask bit n or above", 2, &WriteRecord { mask: mask | above, ..vote.clone() })?;
    }
    let primary = *random.pick(&[n, 16, 255, 256, 256 + n - 1, 1 << 32, u64::MAX]);
    run.expect("a primary n or above", 2, &WriteRecord { primary, ..vote.clone() })?;
    let broken = *random.pick(&[0, 17, 18, 1 << 32, (1 << 32) + 5, u64::MAX]);
    run.expect("row 1 before rows 2 and 9", 1, &WriteRecord { n: broken, primary, room: random.below(5), ..vote })?;
    Ok(())
}
