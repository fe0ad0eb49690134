//! "The boot run and its neighbours" as rows, and what requests #101, #102 and
//! #104 add. The records and actions are worked out by hand from the papers.

use crate::program::prints;

const LISTS: &str = "7 3 ; 3 7 ; 3 ; 3 7";
const NOTHING: &str = "0 0 0 0 0 0 0 0 0 0 0 0 0 0 0 0";
const CACHE: &str = "4096*00";
const BLOCK: &str = "1*62 1*6c 1*6f 1*63 1*6b";

/// What is asked of a step, and what comes of it.
struct Case<'a> {
    record: &'a str,
    event: &'a str,
    payload: &'a str,
    cache: &'a str,
    lists: &'a str,
    answer: u32,
    after: &'a str,
    actions: &'a str,
    part: &'a str,
    cache_after: &'a str,
}

/// The boot run's lists and a cache of zeros, which nothing is written to.
const USUAL: Case = Case {
    record: FRESH,
    event: "",
    payload: "",
    cache: CACHE,
    lists: LISTS,
    answer: 0,
    after: FRESH,
    actions: NOTHING,
    part: "",
    cache_after: CACHE,
};

/// The boot run's block in the cache.
const WITH_BLOCK: Case = Case {
    cache: "626c6f636b 4091*00",
    cache_after: "1*62 1*6c 1*6f 1*63 1*6b 4091*00",
    ..USUAL
};

impl Case<'_> {
    fn row(&self) -> String {
        let start = ["step", self.record, ";", self.event, ";", self.payload];
        let end = [";", self.cache, ";", self.lists];
        [&start[..], &end].concat().join(" ")
    }

    fn text(&self) -> String {
        let answer = self.answer.to_string();
        let start = ["step", &answer, ";", self.after, ";", self.actions];
        let end = [";", self.part, ";", self.cache_after];
        let mut items = [&start[..], &end].concat();
        items.retain(|item| !item.is_empty());
        items.join(" ")
    }
}

fn check(cases: &[Case]) {
    let rows: Vec<_> = cases.iter().map(|case| (case.row(), case.text())).collect();
    prints(&rows);
}

/// A case that changes nothing.
fn unchanged<'a>(answer: u32, record: &'a str, event: &'a str) -> Case<'a> {
    Case {
        record,
        event,
        answer,
        after: record,
        ..USUAL
    }
}

const FRESH: &str = "0 0 0 0 0 0 0 0 0 0 0 0";
const GREETED: &str = "1 0 0 0 0 1 1 0 0 0 0 0";
const OPEN: &str = "2 0 0 0 0 2 0 2 2 2 0 0";
const PROVED: &str = "4 0 0 0 0 3 0 0 2 2 0 0";
const ESTABLISHED: &str = "7 0 0 0 0 4 0 0 0 2 4 0";
const WAITING: &str = "8 1 0 0 5 5 0 0 0 2 4 5";
const PROVING: &str = "3 1 0 0 5 6 0 6 0 2 4 0";
const ACKNOWLEDGED: &str = "3 0 1 0 0 7 0 6 0 2 4 0";
const AGAIN: &str = "7 0 1 0 0 8 0 0 0 2 4 0";

const HELLO: &str = "11 0 0 0 1 0 1060 1000";

#[test]
fn boot_run_up_to_the_block() {
    check(&[
        Case {
            event: "0 0 0 0 0 0 0 0",
            after: GREETED,
            actions: "1 0 0 1 0 0 0 0 0 0 0 0 0 0 0 0",
            ..USUAL
        },
        Case {
            record: GREETED,
            event: HELLO,
            after: OPEN,
            actions: "0 1 1 2 1 1 1 0 0 60 0 0 7 3 0 0",
            ..USUAL
        },
        Case {
            record: OPEN,
            event: "7 2 0 0 0 0 0 0",
            after: PROVED,
            actions: "0 0 0 0 2 0 0 0 0 0 0 0 0 0 0 0",
            ..USUAL
        },
        unchanged(100, PROVED, "4 1 0 0 0 0 0 0"),
        Case {
            record: PROVED,
            event: "4 2 0 0 0 0 0 0",
            after: ESTABLISHED,
            actions: "0 0 0 0 0 2 0 1 0 0 0 0 0 0 0 0",
            ..USUAL
        },
    ]);
}

#[test]
fn boot_run_from_the_block() {
    check(&[
        Case {
            record: ESTABLISHED,
            event: "2 0 0 0 0 0 0 0",
            payload: "626c6f636b",
            after: WAITING,
            actions: "8 0 0 0 0 0 0 0 1 0 0 0 0 0 2 5",
            part: BLOCK,
            cache: CACHE,
            ..WITH_BLOCK
        },
        Case {
            record: WAITING,
            event: "17 0 0 0 0 0 0 0",
            after: PROVING,
            actions: "0 1 0 0 1 0 0 0 2 0 0 0 0 0 0 0",
            ..WITH_BLOCK
        },
        unchanged(100, PROVING, "7 2 0 0 0 0 0 0"),
        Case {
            record: PROVING,
            event: "19 0 0 0 0 0 0 0",
            after: ACKNOWLEDGED,
            ..WITH_BLOCK
        },
        Case {
            record: ACKNOWLEDGED,
            event: "7 6 0 0 0 0 0 0",
            after: AGAIN,
            actions: "0 0 0 0 2 0 0 0 0 0 0 0 0 0 0 0",
            ..WITH_BLOCK
        },
    ]);
}

/// A repeat sends the block of the cache, a DATA hands its payload up.
#[test]
fn parts_of_cache_and_payload() {
    check(&[
        Case {
            record: WAITING,
            event: "23 5 0 0 0 0 0 0",
            payload: "ff",
            cache: "626c6f636b 6b 4090*00",
            after: "8 1 0 0 5 6 0 0 0 2 4 6",
            actions: "8 0 0 0 0 0 0 0 1 0 0 0 0 0 2 5",
            part: BLOCK,
            cache_after: "1*62 1*6c 1*6f 1*63 2*6b 4090*00",
            ..USUAL
        },
        Case {
            record: ESTABLISHED,
            event: "18 0 0 0 0 0 0 0",
            payload: "3*07",
            after: "7 0 0 1 0 5 0 0 0 2 4 0",
            actions: "9 0 0 0 0 0 0 0 0 0 0 1 0 0 1 3",
            part: "3*07",
            ..USUAL
        },
    ]);
}

#[test]
fn case_11_an_ended_token_locks_with_close() {
    prints(&[("seconds 1000 1000 0", "seconds 0 0")]);
    check(&[Case {
        record: GREETED,
        event: "11 0 0 0 1 0 1000 1000",
        after: "9 0 0 0 0 2 0 0 0 0 0 0",
        actions: "2 0 0 2 0 0 0 0 0 0 0 0 0 0 0 0",
        ..USUAL
    }]);
}

#[test]
fn case_12_the_furthest_times_are_clamped() {
    let (largest, smallest) = ("9223372036854775807", "-9223372036854775808");
    prints(&[
        (format!("seconds {largest} {smallest} 0"), "seconds 0 86400"),
        (
            format!("seconds {smallest} {largest} 0"),
            "seconds 0 -86400",
        ),
    ]);
}

#[test]
fn payload_limit() {
    let send = |payload| Case {
        record: ESTABLISHED,
        event: "2 0 0 0 0 0 0 0",
        payload,
        ..USUAL
    };
    check(&[
        Case {
            after: "8 1 0 0 0 5 0 0 0 2 4 5",
            actions: "8 0 0 0 0 0 0 0 1 0 0 0 0 0 2 0",
            ..send("")
        },
        Case {
            after: "8 1 0 0 4096 5 0 0 0 2 4 5",
            actions: "8 0 0 0 0 0 0 0 1 0 0 0 0 0 2 4096",
            part: "4096*01",
            cache: "4097*00",
            cache_after: "4096*01 1*00",
            ..send("4096*01")
        },
        Case {
            answer: 4,
            after: ESTABLISHED,
            ..send("4097*01")
        },
    ]);
}

#[test]
fn cache_suite_and_code_limits() {
    let seventeen = "7 3 ; 3 7 ; 3 ; 3 7 3 3 3 3 3 3 3 3 3 3 3 3 3 3 3";
    let short_cache = Case {
        cache: "4095*00",
        cache_after: "4095*00",
        ..USUAL
    };
    check(&[
        Case {
            event: "0 0 0 0 0 0 0 0",
            answer: 5,
            ..short_cache
        },
        Case {
            lists: seventeen,
            ..unchanged(6, GREETED, HELLO)
        },
        Case {
            event: "24 0 0 0 0 0 0 0",
            answer: 1,
            ..short_cache
        },
    ]);
}

#[test]
fn remaining_refusals() {
    let last = "1 0 0 0 0 4294967295 1 0 0 0 0 0";
    check(&[
        unchanged(2, GREETED, "20 1 3 0 0 0 0 0"),
        unchanged(3, ESTABLISHED, "18 0 0 2 0 0 0 0"),
        unchanged(3, ESTABLISHED, "19 0 0 2 0 0 0 0"),
        unchanged(7, "10 0 0 0 0 0 0 0 0 0 0 0", HELLO),
        unchanged(7, "1 2 3 4 5 6 7 8 9 10 11 12", HELLO),
        unchanged(8, last, HELLO),
        unchanged(8, last, "11 0 0 0 2 301 1060 1000"),
    ]);
}

/// A verdict is looked at last, and only where the event carries one.
#[test]
fn wrong_verdicts() {
    check(&[
        unchanged(41, GREETED, "11 0 0 0 2 0 1060 1000"),
        unchanged(41, GREETED, "11 0 0 0 4294967295 0 1000 1060"),
        unchanged(41, OPEN, "11 0 0 0 2 0 1060 1000"),
        unchanged(41, GREETED, "13 0 0 0 2 0 1060 1000"),
        unchanged(100, OPEN, "11 0 0 0 0 0 1060 1000"),
        unchanged(100, FRESH, "3 0 0 0 2 0 1060 1000"),
        unchanged(9, GREETED, "11 0 0 0 2 301 1060 1000"),
    ]);
}

/// "21 cancels RA in every state where it runs, and the well-formed list has RA
/// off in 5 and 6."
#[test]
fn request_102() {
    check(&[
        Case {
            record: ACKNOWLEDGED,
            event: "21 2 0 0 0 0 0 0",
            after: "5 0 1 0 0 8 8 6 0 0 0 0",
            actions: "3 0 0 1 0 0 0 2 0 0 0 0 0 0 0 0",
            ..USUAL
        },
        unchanged(7, "5 0 1 0 0 8 8 6 0 0 4 0", "0 0 0 0 0 0 0 0"),
    ]);
}

#[test]
fn request_104() {
    prints(&[
        ("seconds 1060 1000 10", "seconds 0 50"),
        ("seconds 1060 1000 300", "seconds 0 -240"),
        ("seconds 1060 1000 301", "seconds 9 0"),
    ]);
    check(&[
        Case {
            record: GREETED,
            event: "11 0 0 0 1 10 1060 1000",
            after: OPEN,
            actions: "0 1 1 2 1 1 1 0 0 50 0 0 7 3 0 0",
            ..USUAL
        },
        unchanged(9, GREETED, "11 0 0 0 1 301 1060 1000"),
        unchanged(9, GREETED, "13 0 0 0 1 301 1060 1000"),
        unchanged(100, GREETED, "13 0 0 0 1 300 1060 1000"),
    ]);
}

#[test]
fn suites_alone() {
    prints(&[
        (format!("suites {LISTS}"), "suites 0 ; 1 7 1 3"),
        ("suites 7 3 ; 3 7 ; 5 ; 3 7".into(), "suites 0 ; 1 7 0 0"),
        ("suites 1 ; 2 ; 0 ; 0".into(), "suites 0 ; 0 0 1 0"),
        ("suites ; 1 ; 1 ;".into(), "suites 0 ; 0 0 0 0"),
    ]);
}

/// A HELLO with the token `t`, provers 3 and 300 and verifiers 5, each of the
/// other messages, and each refusal.
#[test]
fn request_101() {
    let none = "0 0 0 0 0 0 0 0 0 0 0 0 0 0 0 0";
    let provers = "3 300 0 0 0 0 0 0 0 0 0 0 0 0 0 0";
    let verifiers = "5 0 0 0 0 0 0 0 0 0 0 0 0 0 0 0";
    let hello = format!("message 0 1 0 2 1 4 1 ; {provers} ; {verifiers}");
    let plain = |numbers: &str| format!("message {numbers} ; {none} ; {none}");
    let refused = |number: u32| plain(&format!("{number} 0 0 0 0 0 0"));
    prints(&[
        ("message 0a0b 0a0174 120303ac02 1a0105", hello),
        ("message 1200", plain("0 2 0 0 0 0 0")),
        ("message 1a00", plain("0 3 0 0 0 0 0")),
        ("message 22030a0174", plain("0 4 0 0 0 4 1")),
        ("message 2a00", plain("0 5 0 0 0 0 0")),
        ("message 32030a0170", plain("0 6 0 0 0 4 1")),
        ("message 3a030a0176", plain("0 7 0 0 0 4 1")),
        ("message 420510010a0164", plain("0 8 1 0 0 6 1")),
        ("message 4a020801", plain("0 9 1 0 0 0 0")),
        ("message 22020a00", plain("0 4 0 0 0 4 0")),
        ("message 2200", plain("0 4 0 0 0 0 0")),
        ("message 22030a02", refused(21)),
        ("message 120000", refused(22)),
        ("message 1000", refused(23)),
        ("message 4a020802", refused(24)),
        ("message 0a131211 17*05", refused(25)),
    ]);
}
