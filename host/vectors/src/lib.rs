//! Stored messages, and what a reader has to make of each: those of
//! `messages.txt`, which protobuf serialised, and those of `by-hand.txt`.

#![forbid(unsafe_code)]

/// Bytes, and what they are to be read as. All after the number is 0 or empty
/// where a message has none, and where the bytes are refused.
#[derive(Clone, Debug, Default, PartialEq, Eq)]
pub struct Vector {
    pub name: String,
    pub bytes: Vec<u8>,
    /// 1 to 9 for a message, 21 to 25 for a refusal.
    pub number: u32,
    /// The token or payload.
    pub part: Vec<u8>,
    pub bit: u32,
    pub provers: Vec<u32>,
    pub verifiers: Vec<u32>,
}

/// All stored vectors.
pub fn all() -> Vec<Vector> {
    let files = [
        include_str!("../messages.txt"),
        include_str!("../by-hand.txt"),
    ];
    let lines = files.into_iter().flat_map(str::lines);
    lines.filter_map(vector).collect()
}

/// The vector of a line; none of a comment or an empty line.
fn vector(line: &str) -> Option<Vector> {
    if line.is_empty() || line.starts_with('#') {
        return None;
    }
    let columns: Vec<&str> = line.split_whitespace().collect();
    let (head, rest) = match columns[..] {
        [name, hex, number] => ([name, hex, number], None),
        [name, hex, number, part, bit, provers, verifiers] => {
            ([name, hex, number], Some([part, bit, provers, verifiers]))
        }
        _ => panic!("a vector has three or seven columns: {line}"),
    };
    let [part, bit, provers, verifiers] = rest.unwrap_or(["-", "0", "-", "-"]);
    Some(Vector {
        name: head[0].into(),
        bytes: bytes(head[1]),
        number: number(head[2]),
        part: bytes(part),
        bit: number(bit),
        provers: list(provers),
        verifiers: list(verifiers),
    })
}

/// Bytes in hex, where "_" only separates; "-" is none.
fn bytes(column: &str) -> Vec<u8> {
    let digits: Vec<u8> = column
        .bytes()
        .filter(|byte| !b"-_".contains(byte))
        .collect();
    let byte = |pair: &[u8]| match pair {
        [high, low] => digit(*high) << 4 | digit(*low),
        _ => panic!("half a byte in {column}"),
    };
    digits.chunks(2).map(byte).collect()
}

fn digit(character: u8) -> u8 {
    let value = char::from(character).to_digit(16);
    value.expect("a digit in hex") as u8
}

fn list(column: &str) -> Vec<u32> {
    let entries = column.split(',').filter(|&entry| entry != "-");
    entries.map(number).collect()
}

fn number(column: &str) -> u32 {
    column.parse().expect("a number")
}
