//! The tags of a record.

use menhotrac::Tag;

use crate::support::in_state;

#[test]
fn none_where_the_record_has_0() {
    for state in 0..10 {
        let connection = in_state(state);
        let record = connection.raw();
        let tags = connection.tags();
        assert_tag(tags.h, record.h);
        assert_tag(tags.prover, record.prover);
        assert_tag(tags.verifier, record.verifier);
        assert_tag(tags.dat, record.dat);
        assert_tag(tags.ra, record.ra);
        assert_tag(tags.ack, record.ack);
    }
}

fn assert_tag(tag: Option<Tag>, number: u32) {
    match number {
        0 => assert_eq!(tag, None),
        _ => assert_eq!(tag, Some(Tag(number))),
    }
}
