//! Bytes, given in pieces and printed in runs.

use crate::program::{errors, prints};

/// The answer to a message with these seven numbers and no suites.
fn message(numbers: &str) -> String {
    let list = "0 0 0 0 0 0 0 0 0 0 0 0 0 0 0 0";
    format!("message {numbers} ; {list} ; {list}")
}

#[test]
fn pieces_stand_one_after_the_other() {
    let data = message("0 8 1 0 0 4 3");
    prints(&[
        ("message 42070a03616263 1001", &data),
        ("message 42 07 0a 03 61 62 63 10 01", &data),
        ("message 1*42 1*07 0a03 616263 1*10 00001*01", &data),
        ("message 0*ff 42070a03 0*00 616263 1001 0*42", &data),
    ]);
    prints(&[
        ("message 22060a04 4*ff", message("0 4 0 0 0 4 4")),
        ("message 22060a04 2*ff 2*ff", message("0 4 0 0 0 4 4")),
        ("message 22060a04 ffff ffff", message("0 4 0 0 0 4 4")),
    ]);
}

#[test]
fn no_bytes_are_a_group_too() {
    let refused = message("22 0 0 0 0 0 0");
    prints(&[
        ("message", &refused),
        ("message ", &refused),
        ("message 0*00", &refused),
        ("message 00000*ff 0*00", &refused),
    ]);
}

#[test]
fn pieces_that_are_wrong() {
    errors(&[
        "message 1",
        "message 120",
        "message 1 2 0 0",
        "message 1G",
        "message 1A00",
        "message 0x12",
        "message -12",
        "message 12,00",
        "message *",
        "message *00",
        "message 1*",
        "message 1*0",
        "message 1*000",
        "message 1*0000",
        "message 1*0A",
        "message 1*-0",
        "message 1**00",
        "message 1*00*00",
        "message 1 *00",
        "message 1* 00",
        "message 1 * 00",
        "message +1*00",
        "message -1*00",
        "message -0*00",
        "message a*00",
        "message 0*",
        "message 0*0",
        "message 4294967295*00",
        "message 4294967296*00",
        "message 18446744073709551616*00",
    ]);
}

#[test]
fn groups_have_32768_bytes_at_most() {
    // A DAT whose token fills the group.
    let dat = message("0 4 0 0 0 8 32760");
    prints(&[
        ("message 22fcff01 0af8ff01 32760*7a", &dat),
        ("message 22fcff01 0af8ff01 32759*7a 7a", &dat),
        ("message 22fcff01 0af8ff01 16000*7a 16760*7a 0*7a", &dat),
    ]);
    errors(&[
        "message 32769*7a",
        "message 32768*7a 7a",
        "message 32767*7a 7a7a",
        "message 7a 32768*7a",
        "message 16384*7a 16384*7a 1*7a",
        "message 32768*7a 4294967295*7a",
        "message 22fcff01 0af8ff01 32761*7a",
    ]);
}

const IGNORED: &str = "0 0 0 0 0 0 0 0 0 0 0 0 ; 3 0 0 0 0 0 0 0";
const ZEROS: &str = "0 0 0 0 0 0 0 0 0 0 0 0 ; 0 0 0 0 0 0 0 0 0 0 0 0 0 0 0 0";

/// The limit is that of a group, not of a row.
#[test]
fn payload_and_cache_have_the_same_limit() {
    prints(&[
        (
            format!("step {IGNORED} ; 32768*01 ; 32768*02 ;;;;"),
            format!("step 100 ; {ZEROS} ; ; 32768*02"),
        ),
        (
            format!("step {IGNORED} ; 32769*01 ; 32768*02 ;;;;"),
            "error in line 2".into(),
        ),
        (
            format!("step {IGNORED} ; 32768*01 ; 32769*02 ;;;;"),
            "error in line 3".into(),
        ),
    ]);
}

#[test]
fn runs_are_the_longest() {
    let refused = |cache: &str| format!("step 5 ; {ZEROS} ; ;{cache}");
    let row = |cache: &str| format!("step {IGNORED} ;; {cache} ;;;;");
    prints(&[
        (row(""), refused("")),
        (row("0*00"), refused("")),
        (row("0a1414"), refused(" 1*0a 2*14")),
        (row("0a 14 1*14 2*14"), refused(" 1*0a 4*14")),
        (row("00ff00ffff"), refused(" 1*00 1*ff 1*00 2*ff")),
        (row("2048*e0 2047*e0"), refused(" 4095*e0")),
        (row("2048*e0 0*00 2046*e0 e1"), refused(" 4094*e0 1*e1")),
    ]);
}
