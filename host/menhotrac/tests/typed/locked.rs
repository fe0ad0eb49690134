//! A locked connection ignores all.

use menhotrac::{Answer, Bit, Connection, HandshakeTimer, State, Tag};

use crate::support::{every_event, in_state, patterned_cache, Carried, CARRIED};

#[test]
fn every_event_is_ignored() {
    let locked = in_state(9);
    assert_eq!(locked.state(), Some(State::ClosedLocked));
    for tag in 0..=10 {
        let bit = if tag % 2 == 0 { Bit::Zero } else { Bit::One };
        ignores_all(
            &locked,
            Carried {
                tag: Tag(tag),
                bit,
                ..CARRIED
            },
        );
    }
    for timer in [HandshakeTimer::H, HandshakeTimer::Hp, HandshakeTimer::Hv] {
        ignores_all(&locked, Carried { timer, ..CARRIED });
    }
}

fn ignores_all(locked: &Connection, carried: Carried) {
    for event in every_event(carried) {
        let mut connection = locked.clone();
        let mut cache = patterned_cache();
        assert_eq!(
            connection.step(event, &mut cache),
            Answer::Ignored,
            "{event:?}"
        );
        assert_eq!(connection, *locked);
        assert_eq!(cache, patterned_cache());
    }
}
