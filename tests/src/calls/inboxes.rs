//! Inboxes, cut well and ill, and the call that reads one.

use super::call::{Answer, Call, Lent};
use super::messages::{bytes, filled, records, some_message, some_votes, Vote, DAMAGES, MOST_IN_MESSAGE};
use super::run::{Held, Run};
use super::show;
use super::sizes::{broken_sizes, every_hall, every_n, Sizes, HUGE};
use super::states::Scene;
use crate::random::Random;
use second::calls;

/// Messages one after the other, each after its length.
pub fn pack<M: AsRef<[u8]>>(messages: impl IntoIterator<Item = M>) -> Vec<u8> {
    let mut inbox = Vec::new();
    for message in messages {
        let message = message.as_ref();
        inbox.extend((message.len() as u16).to_le_bytes());
        inbox.extend(message);
    }
    inbox
}

/// A message of each sender: silence, readable or damaged. The own slot holds anything.
pub fn some_messages(random: &mut Random, scene: &Scene) -> Vec<Vec<u8>> {
    let mut messages: Vec<Vec<u8>> = Vec::new();
    for sender in 0..scene.sizes.n {
        let message = match random.below(10) {
            0 | 1 => Vec::new(),
            2 if sender == scene.sizes.me => long(random),
            2 | 3 => {
                let message = some_message(random, scene);
                (random.pick(DAMAGES).make)(random, scene, message)
            }
            4 if sender > 0 => random.pick(&messages).clone(),
            _ => some_message(random, scene),
        };
        messages.push(message);
    }
    messages
}

/// Over the limit, and still within two length bytes.
fn long(random: &mut Random) -> Vec<u8> {
    let length = *random.pick(&[MOST_IN_MESSAGE + 1, 4096, 8191, 65_535]);
    (0..length).map(|_| random.any() as u8).collect()
}

pub fn well_cut(random: &mut Random, scene: &Scene) -> Vec<u8> {
    let mut messages = some_messages(random, scene);
    if random.chance(5) {
        let sender = random.below(messages.len());
        messages[sender] = long(random);
    }
    pack(&messages)
}

/// A way to cut an inbox ill, by its name.
pub type IllCut = (&'static str, fn(&mut Random, &Scene, Vec<Vec<u8>>) -> Vec<u8>);

pub const ILL_CUTS: &[IllCut] = &[
    ("a byte missing", |_, _, messages| {
        let mut inbox = pack(&messages);
        inbox.pop();
        inbox
    }),
    ("a byte more", |random, _, messages| [pack(&messages), vec![random.below(2) as u8]].concat()),
    ("two zero bytes more", |_, _, messages| [pack(&messages), vec![0, 0]].concat()),
    ("a message too few", |_, _, mut messages| {
        messages.pop();
        pack(&messages)
    }),
    ("a message too many", |random, scene, mut messages| {
        messages.push(some_message(random, scene));
        pack(&messages)
    }),
    ("nothing at all", |_, _, _| Vec::new()),
    ("the last length one too large", |_, scene, mut messages| {
        let last = scene.sizes.n as usize - 1;
        messages[last].truncate(MOST_IN_MESSAGE);
        with_length(messages, last, |length| length + 1)
    }),
    ("the last length one too small", |_, scene, mut messages| {
        let last = scene.sizes.n as usize - 1;
        if messages[last].is_empty() {
            messages[last].push(0);
        }
        with_length(messages, last, |length| length - 1)
    }),
    ("a length of 65,535 beyond the end", |random, _, messages| {
        let sender = random.below(messages.len());
        with_length(messages.iter().map(|message| message[..message.len().min(300)].to_vec()).collect(), sender, |_| 65_535)
    }),
    ("the own slot's length reaches beyond the end", |_, scene, messages| {
        let me = scene.sizes.me as usize;
        let rest: usize = messages[me..].iter().map(|message| 2 + message.len()).sum();
        let length = u16::try_from(rest - 1).unwrap_or(u16::MAX);
        let mut inbox = pack(&messages);
        let place = pack(&messages[..me]).len();
        inbox[place..place + 2].copy_from_slice(&length.to_le_bytes());
        inbox.truncate(place + 1 + usize::from(length));
        inbox
    }),
    ("cut within a length", |_, scene, messages| {
        let mut inbox = pack(&messages[..scene.sizes.n as usize - 1]);
        inbox.push(0);
        inbox
    }),
];

/// Packed, with another length stated for one message.
fn with_length(messages: Vec<Vec<u8>>, sender: usize, length: fn(u16) -> u16) -> Vec<u8> {
    let place = pack(&messages[..sender]).len();
    let mut inbox = pack(&messages);
    let stated = length(messages[sender].len() as u16);
    inbox[place..place + 2].copy_from_slice(&stated.to_le_bytes());
    inbox
}

/// Smaller inboxes: of a well-cut one without a message or a record, of any other without some of its bytes.
pub fn smaller_inboxes(n: u64, inbox: &[u8]) -> Vec<Vec<u8>> {
    let Some(messages) = cut(n, inbox) else {
        return show::cuts(inbox);
    };
    let mut all = Vec::new();
    for (sender, message) in messages.iter().enumerate().filter(|(_, message)| !message.is_empty()) {
        let mut instead = |smaller: Vec<u8>| {
            let mut messages = messages.clone();
            messages[sender] = &smaller;
            all.push(pack(messages));
        };
        instead(Vec::new());
        let starts: Vec<usize> = records(message).collect();
        for (place, &start) in starts.iter().enumerate() {
            let end = starts.get(place + 1).map_or(message.len(), |&end| end.min(message.len()));
            instead([&message[..start], &message[end..]].concat());
            if message[start + 1] > 0 && start + 12 <= end {
                // The same record without its first entry.
                let head = [message[start], message[start + 1] - 1, message[start + 2], message[start + 3]];
                instead([&message[..start], &head, &message[start + 12..]].concat());
            }
        }
        show::cuts(message).into_iter().for_each(instead);
    }
    all
}

fn cut(n: u64, mut rest: &[u8]) -> Option<Vec<&[u8]>> {
    let mut messages = Vec::new();
    for _ in 0..n {
        let (length, after) = rest.split_first_chunk::<2>()?;
        let (message, after) = after.split_at_checked(u16::from_le_bytes(*length).into())?;
        messages.push(message);
        rest = after;
    }
    rest.is_empty().then_some(messages)
}

#[derive(Clone, PartialEq)]
pub struct ReadInbox {
    pub n: u64,
    pub me: u64,
    pub inbox: Vec<u8>,
}

impl Call for ReadInbox {
    const NAME: &'static str = "read_inbox";
    const VALUES: &'static [&'static str] = &["unreadable"];
    const ROWS: &'static [u64] = &[1, 4];

    fn lent(&self) -> Lent {
        Lent::default()
    }

    fn proved(&self, _: &mut Lent) -> Answer {
        let heard = raudokiin::calls::read_inbox(self.n as usize, self.me as usize, &self.inbox);
        Answer::new(heard.number, &[heard.unreadable.into()])
    }

    fn second(&self, _: &mut Lent) -> Answer {
        let heard = calls::read_inbox(self.n, self.me, &self.inbox);
        Answer::new(heard.number, &[heard.value])
    }

    fn smaller(&self) -> Vec<ReadInbox> {
        smaller_inboxes(self.n.min(16), &self.inbox).into_iter().map(|inbox| ReadInbox { inbox, ..self.clone() }).collect()
    }

    fn show(&self) -> String {
        format!("n {}, me {}, inbox {}", self.n, self.me, show::bytes(&self.inbox))
    }
}

/// Every n and own number with inboxes of silence of every count; one message of each length around its limit; the mask
/// bit of every node at every n.
pub fn boundaries(run: &mut Run) -> Held {
    for n in every_n() {
        for me in (0..=17).chain(HUGE) {
            let inbox = vec![0; 2 * n.min(17) as usize];
            let number = if (1..=16).contains(&n) && me < n { 0 } else { 1 };
            run.expect("every n and own number", number, &ReadInbox { n, me, inbox })?;
        }
        for length in 0..=36 {
            run.hold("silence of every length", &ReadInbox { n, me: 0, inbox: vec![0; length] })?;
        }
    }
    for Sizes { n, me, .. } in every_hall() {
        for sender in 0..n {
            for bit in 0..16 {
                let record = Vote { primary: 0, mask: 1 << bit, batch: vec![] }.bytes();
                let messages: Vec<&[u8]> = (0..n).map(|slot| if slot == sender { record.as_slice() } else { &[] }).collect();
                run.expect("every mask bit at every n", 0, &ReadInbox { n, me, inbox: pack(messages) })?;
            }
        }
    }
    for length in (0..20).chain(3940..=3980).chain([4096, 65_528, 65_532, 65_535]) {
        let zeros = vec![0; length];
        run.expect("a message of heads of each length", 0, &ReadInbox { n: 2, me: 1, inbox: pack([&zeros[..], &[]]) })?;
        run.expect("an own slot of each length", 0, &ReadInbox { n: 2, me: 0, inbox: pack([&zeros[..], &[]]) })?;
        run.expect("an own slot of each length, ill cut", 4, &ReadInbox { n: 2, me: 0, inbox: pack([&zeros[..]]) })?;
    }
    Ok(())
}

pub fn compare(run: &mut Run, random: &mut Random, turn: usize) -> Held {
    let scene = Scene::some(random, |random, f| random.between(1, f as usize + 1) as u64);
    let Sizes { n, me, .. } = scene.sizes;
    run.expect("a well-cut inbox", 0, &ReadInbox { n, me, inbox: well_cut(random, &scene) })?;
    let (name, cut_ill) = ILL_CUTS[turn % ILL_CUTS.len()];
    let messages = some_messages(random, &scene);
    run.expect(name, 4, &ReadInbox { n, me, inbox: cut_ill(random, &scene, messages) })?;
    let mut inbox = well_cut(random, &scene);
    if !inbox.is_empty() {
        let place = random.below(inbox.len());
        inbox[place] ^= 1 << random.below(8);
    }
    run.hold("an inbox with a bit flipped", &ReadInbox { n, me, inbox })?;
    let damaged = one_damaged(random, &scene, turn);
    run.expect(DAMAGES[turn % DAMAGES.len()].name, 0, &damaged)?;
    let broken = broken_sizes(random);
    if !(1..=16).contains(&broken.n) || broken.me >= broken.n {
        let inbox = damaged.inbox[1..].to_vec();
        run.expect("row 1 before row 4", 1, &ReadInbox { n: broken.n, me: broken.me, inbox })?;
    }
    Ok(())
}

/// One sender's message damaged in the turn's way, the others silent or at the limit.
fn one_damaged(random: &mut Random, scene: &Scene, turn: usize) -> ReadInbox {
    let Sizes { n, me, .. } = scene.sizes;
    let sender = random.below(n as usize);
    let message = bytes(&some_votes(random, scene));
    let damaged = (DAMAGES[turn % DAMAGES.len()].make)(random, scene, message);
    let full = filled(random, scene, MOST_IN_MESSAGE);
    let others: &[u8] = if random.chance(10) { &full } else { &[] };
    let messages = (0..n as usize).map(|slot| if slot == sender { damaged.as_slice() } else { others });
    ReadInbox { n, me, inbox: pack(messages) }
}
