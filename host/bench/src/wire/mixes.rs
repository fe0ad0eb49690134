//! The messages that are read. Those of a mix have the same form and different contents.

use model::random::Random;

/// Messages of a mix: few enough to stay in the cache, so that reading is measured and not fetching.
const MESSAGES: usize = 24;

const HELLO: u32 = 1;
const CLOSE: u32 = 2;
const DAT: u32 = 4;
const DATA: u32 = 8;
const ACK: u32 = 9;

const VARINT: u32 = 0;
const DELIMITED: u32 = 2;

pub struct Mix {
    pub name: &'static str,
    pub messages: Vec<Vec<u8>>,
}

fn varint(mut value: u32) -> Vec<u8> {
    let mut bytes = Vec::new();
    while value >= 0x80 {
        bytes.push(value as u8 | 0x80);
        value >>= 7;
    }
    bytes.push(value as u8);
    bytes
}

fn delimited(field: u32, content: &[u8]) -> Vec<u8> {
    let len = content.len() as u32;
    [&varint(field << 3 | DELIMITED), &varint(len), content].concat()
}

fn bit(field: u32, bit: u32) -> Vec<u8> {
    [varint(field << 3 | VARINT), varint(bit)].concat()
}

fn some_bytes(random: &mut Random, len: usize) -> Vec<u8> {
    (0..len).map(|_| random.next_u32() as u8).collect()
}

/// A list field whose suites lie between these bounds.
fn list(random: &mut Random, field: u32, count: usize, least: u32, most: u32) -> Vec<u8> {
    let mut suite = || least + random.below(most - least);
    let entries: Vec<u8> = (0..count).flat_map(|_| varint(suite())).collect();
    delimited(field, &entries)
}

fn token(random: &mut Random) -> Vec<u8> {
    delimited(1, &some_bytes(random, 1_000))
}

/// A token of 1,000 bytes and three suites in each list, of one byte or two.
fn hello(random: &mut Random) -> Vec<u8> {
    let lists = [2, 3].map(|field| list(random, field, 3, 1, 300));
    delimited(HELLO, &[token(random), lists.concat()].concat())
}

/// The longest lists there are: 16 suites of five bytes in each.
fn long_hello(random: &mut Random) -> Vec<u8> {
    let lists = [2, 3].map(|field| list(random, field, 16, 1 << 28, u32::MAX));
    delimited(HELLO, &[token(random), lists.concat()].concat())
}

fn data(random: &mut Random, len: usize) -> Vec<u8> {
    let payload = delimited(1, &some_bytes(random, len));
    let bit = bit(2, random.below(2));
    delimited(DATA, &[payload, bit].concat())
}

fn ack(random: &mut Random) -> Vec<u8> {
    delimited(ACK, &bit(1, random.below(2)))
}

/// Each refusal in turn, 21 first by a message that is cut and then by a part that is.
fn refused(random: &mut Random, index: usize) -> Vec<u8> {
    match index % 6 {
        0 => {
            let mut cut = hello(random);
            cut.truncate(500);
            cut
        }
        1 => delimited(DAT, &delimited(1, &some_bytes(random, 100))[..50]),
        2 => [data(random, 64), ack(random)].concat(),
        3 => delimited(ACK, &delimited(1, &[])),
        4 => delimited(DATA, &bit(2, 2 + random.below(100))),
        _ => delimited(HELLO, &list(random, 2, 17, 1, 300)),
    }
}

fn mix(name: &'static str, mut message: impl FnMut(&mut Random, usize) -> Vec<u8>) -> Mix {
    let mut random = Random::new(1);
    let messages = (0..MESSAGES).map(|index| message(&mut random, index));
    Mix {
        name,
        messages: messages.collect(),
    }
}

pub fn all() -> Vec<Mix> {
    vec![
        mix("read-hello", |random, _| hello(random)),
        mix("read-hello-16", |random, _| long_hello(random)),
        mix("read-data-1", |random, _| data(random, 1)),
        mix("read-data-4096", |random, _| data(random, 4_096)),
        mix("read-ack", |random, _| ack(random)),
        mix("read-close", |_, _| delimited(CLOSE, &[])),
        mix("read-refused", refused),
    ]
}

#[cfg(test)]
mod tests {
    use super::all;
    use crate::wire::check;
    use model::wire::{read, Message};

    /// Whether a message is what the name of its mix says, as the plain reader sees it.
    fn fits(name: &str, index: usize, bytes: &[u8]) -> bool {
        match (name, read(bytes)) {
            ("read-hello", Ok(Message::Hello { token, provers, .. })) => {
                (token.len(), provers.count) == (1_000, 3)
            }
            ("read-hello-16", Ok(Message::Hello { verifiers, .. })) => verifiers.count == 16,
            ("read-data-1", Ok(Message::Data { payload, .. })) => payload.len() == 1,
            ("read-data-4096", Ok(Message::Data { payload, .. })) => payload.len() == 4_096,
            ("read-ack", Ok(Message::Ack { .. })) | ("read-close", Ok(Message::Close)) => true,
            ("read-refused", Err(fault)) => fault.number() == [21, 21, 22, 23, 24, 25][index % 6],
            _ => false,
        }
    }

    #[test]
    fn messages_are_what_the_name_says() {
        for mix in all() {
            for (index, bytes) in mix.messages.iter().enumerate() {
                assert!(fits(mix.name, index, bytes), "{}, {index}", mix.name);
            }
        }
    }

    #[test]
    fn readers_read_the_same() {
        for mix in all() {
            check(&mix);
        }
    }
}
