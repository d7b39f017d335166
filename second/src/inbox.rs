//! An inbox is exactly n messages, senders 0 to n−1, each after its length in two bytes, low byte first.

use crate::message;
use crate::sizes::bit;

/// The n messages, or nothing where the inbox is ill cut.
pub fn cut(n: usize, inbox: &[u8]) -> Option<Vec<&[u8]>> {
    let mut messages = Vec::with_capacity(n);
    let mut rest = inbox;
    for _ in 0..n {
        let (&length, after) = rest.split_first_chunk::<2>()?;
        let (message, after) = after.split_at_checked(u16::from_le_bytes(length).into())?;
        messages.push(message);
        rest = after;
    }
    rest.is_empty().then_some(messages)
}

/// The senders whose message is unreadable, never the own bit; nothing where the inbox is ill cut.
pub fn unreadable(n: usize, me: usize, inbox: &[u8]) -> Option<u16> {
    let messages = cut(n, inbox)?;
    let unread = |&sender: &usize| sender != me && message::read(n, messages[sender]).is_none();
    Some((0..n).filter(unread).map(bit).sum())
}

/// The inbox as the transport cuts it. A message too long for its two length bytes comes as silence.
pub fn pack<'a>(messages: impl IntoIterator<Item = &'a [u8]>) -> Vec<u8> {
    let mut inbox = Vec::new();
    for message in messages {
        let (length, message) = match u16::try_from(message.len()) {
            Ok(length) => (length, message),
            Err(_) => (0, &[][..]),
        };
        inbox.extend(length.to_le_bytes());
        inbox.extend(message);
    }
    inbox
}
