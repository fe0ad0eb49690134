//! The archive's reader, and the plain one beside it, on the stored vectors.

use compare::reading::Reading;
use menhotrac::raw::{self, SuiteEntries};
use model::wire;
use vectors::Vector;

/// What lists hold before a call, so that it shows what is written.
const BEFORE: [SuiteEntries; 2] = [[77; 16], [88; 16]];

/// The list after a HELLO with these suites.
fn filled(suites: &[u32]) -> SuiteEntries {
    let mut list = SuiteEntries::default();
    list[..suites.len()].copy_from_slice(suites);
    list
}

/// What the vector asks for. A part may stand anywhere in the bytes.
fn wanted(vector: &Vector, place: usize) -> Reading {
    let mut reading = Reading::before(BEFORE);
    if vector.number > 9 {
        reading.message.refusal = vector.number;
        return reading;
    }
    if vector.number == 1 {
        reading.provers = filled(&vector.provers);
        reading.verifiers = filled(&vector.verifiers);
    }
    reading.message = raw::Message {
        refusal: raw::NOT_REFUSED,
        number: vector.number,
        bit: vector.bit,
        provers: vector.provers.len(),
        verifiers: vector.verifiers.len(),
        place,
        size: vector.part.len(),
    };
    reading
}

#[test]
fn archive_reads_the_stored_vectors() {
    for vector in vectors::all() {
        let reading = Reading::of_archive(&vector.bytes, BEFORE);
        let raw::Message { place, size, .. } = reading.message;
        assert_eq!(reading, wanted(&vector, place), "{}", vector.name);
        assert_eq!(
            vector.bytes[place..][..size],
            vector.part,
            "{}",
            vector.name
        );
    }
}

#[test]
fn plain_reader_finds_the_same_places() {
    for vector in vectors::all() {
        let read = wire::read(&vector.bytes);
        let plain = Reading::of_plain(&vector.bytes, &read, BEFORE);
        let archive = Reading::of_archive(&vector.bytes, BEFORE);
        assert_eq!(archive, plain, "{}", vector.name);
    }
}
