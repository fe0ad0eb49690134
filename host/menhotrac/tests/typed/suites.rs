//! The choice of suites, asked alone and in a hello.

use menhotrac::{
    choose_suites, Choice, Event, Lists, Message, Refusal, State, Suites, MAX_LIST_LEN,
};

use crate::support::{handled, in_state, patterned_cache, LISTS, TOKEN};

/// Lists whose one common suite each way is 0.
const ZEROS: Lists = Lists {
    our_verifiers: &[4, 0],
    peer_provers: &[0],
    peer_verifiers: &[0],
    our_provers: &[5, 0],
};

#[test]
fn first_in_common_each_way() {
    let choice = Choice {
        verifier: Some(7),
        prover: Some(3),
    };
    assert_eq!(choose_suites(&LISTS), Ok(choice));
}

#[test]
fn nothing_in_common() {
    let lists = Lists {
        peer_provers: &[8],
        ..LISTS
    };
    assert_eq!(
        choose_suites(&lists),
        Ok(Choice {
            verifier: None,
            prover: Some(3)
        })
    );
    let lists = Lists {
        our_provers: &[],
        ..LISTS
    };
    assert_eq!(
        choose_suites(&lists),
        Ok(Choice {
            verifier: Some(7),
            prover: None
        })
    );
    assert_eq!(
        choose_suites(&Lists::default()),
        Ok(Choice {
            verifier: None,
            prover: None
        })
    );
}

#[test]
fn zero_is_a_suite() {
    let choice = Choice {
        verifier: Some(0),
        prover: Some(0),
    };
    assert_eq!(choose_suites(&ZEROS), Ok(choice));
    let hello = Event::ScHello {
        token: TOKEN,
        lists: ZEROS,
    };
    let mut cache = patterned_cache();
    let actions = handled(in_state(1).step(hello, &mut cache));
    assert_eq!(
        actions.suites,
        Some(Suites {
            verifier: 0,
            prover: 0
        })
    );
}

#[test]
fn long_list_is_refused() {
    let list = [3; MAX_LIST_LEN + 1];
    let lists = Lists {
        our_provers: &list,
        ..LISTS
    };
    assert_eq!(choose_suites(&lists), Err(Refusal::ListTooLong));
    let lists = Lists {
        our_provers: &list[1..],
        ..LISTS
    };
    assert_eq!(
        choose_suites(&lists),
        Ok(Choice {
            verifier: Some(7),
            prover: Some(3)
        })
    );
}

#[test]
fn hello_without_a_common_suite_locks() {
    for lists in [
        Lists {
            our_verifiers: &[],
            ..LISTS
        },
        Lists {
            our_provers: &[],
            ..LISTS
        },
    ] {
        let mut connection = in_state(1);
        let mut cache = patterned_cache();
        let actions = handled(connection.step(
            Event::ScHello {
                token: TOKEN,
                lists,
            },
            &mut cache,
        ));
        assert_eq!(actions.message, Some(Message::Close));
        assert_eq!(actions.suites, None);
        assert_eq!(connection.state(), Some(State::ClosedLocked));
    }
}
