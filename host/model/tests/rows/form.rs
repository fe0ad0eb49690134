//! Words, groups, numbers and lists.

use crate::program::{errors, prints};

const NONE_FOUND: &str = "suites 0 ; 0 0 0 0";

#[test]
fn words_are_exact() {
    errors(&[
        " seconds 3 1 0",
        "Seconds 3 1 0",
        "SECONDS 3 1 0",
        "second 3 1 0",
        "secondss 3 1 0",
        "seconds3 1 0",
        "seconds\t3 1 0",
        "seconds# 3 1 0",
        "suites;;;",
        "message;",
        "messages",
        "3 1 0",
        ";",
        " ",
        " # no comment",
    ]);
}

#[test]
fn items_stand_between_blanks() {
    prints(&[
        ("seconds 3 1 0", "seconds 0 2"),
        ("seconds   3  1    0", "seconds 0 2"),
        ("seconds 3 1 0   ", "seconds 0 2"),
        ("suites 1;1;2;2", "suites 0 ; 1 1 1 2"),
        ("suites  1 ;1; 2  ;  2 ", "suites 0 ; 1 1 1 2"),
        ("suites ;;;", NONE_FOUND),
        ("suites ; ; ; ", NONE_FOUND),
    ]);
    errors(&["seconds 3\t1 0", "seconds 3,1,0", "seconds 3 1 0\r"]);
}

#[test]
fn rows_have_just_their_groups() {
    errors(&[
        "suites",
        "suites 1 2 3 4",
        "suites 1 ; 1 ; 2",
        "suites ;;",
        "suites ;;;;",
        "suites 1 ; 1 ; 2 ; 2 ;",
        "suites ; 1 ; 1 ; 2 ; 2",
        "seconds 3 1 0 ;",
        "seconds ; 3 1 0",
        "seconds 3 ; 1 ; 0",
        "message ;",
        "message 12 ; 00",
    ]);
}

#[test]
fn steps_have_eight_groups() {
    let groups = ["0 0 0 0 0 0 0 0 0 0 0 0", "3 0 0 0 0 0 0 0"];
    let [record, event] = groups;
    let row = |lists: &str| format!("step {record} ; {event} ;; 4096*00 {lists}");
    let ignored = format!("step 100 ; {record} ; {record} 0 0 0 0 ; ; 4096*00");
    prints(&[(row(";;;;"), &ignored), (row("; 1 ; 2 ; 3 ; 4"), &ignored)]);
    errors(&[
        row(";;;"),
        row(";;;;;"),
        row(""),
        "step".into(),
        "step ;;;;;;;".into(),
        format!("step {record} 0 ; {event} ;; 4096*00 ;;;;"),
        format!("step 0 0 0 0 0 0 0 0 0 0 0 ; {event} ;; 4096*00 ;;;;"),
        format!("step {record} ; {event} 0 ;; 4096*00 ;;;;"),
        format!("step {record} ; 3 0 0 0 0 0 0 ;; 4096*00 ;;;;"),
        format!("step {record} {event} ;; 4096*00 ;;;;"),
        format!("step {record} ; {event} ; 4096*00 ;;;;"),
    ]);
}

#[test]
fn seconds_have_three_numbers() {
    errors(&["seconds", "seconds 3 1", "seconds 3 1 0 0"]);
}

#[test]
fn numbers_are_decimal_digits() {
    prints(&[
        ("seconds 003 0001 000", "seconds 0 2"),
        ("seconds -3 -1 0", "seconds 0 -2"),
        ("seconds -0 -000 0", "seconds 0 0"),
        ("seconds -007 0 0", "seconds 0 -7"),
    ]);
    errors(&[
        "seconds +3 1 0",
        "seconds 3 +1 0",
        "seconds 3 1 +0",
        "seconds - 1 0",
        "seconds -- 1 0",
        "seconds --3 1 0",
        "seconds - 3 1 0",
        "seconds 3- 1 0",
        "seconds 3-1 0",
        "seconds -+3 1 0",
        "seconds 3 1 -0",
        "seconds 3 1 -1",
        "seconds 0x3 1 0",
        "seconds 3.0 1 0",
        "seconds 3_0 1 0",
        "seconds a 1 0",
        "suites -0 ;;;",
        "suites +1 ;;;",
        "suites a ;;;",
    ]);
}

#[test]
fn numbers_fit_their_bits() {
    let zeros = "0".repeat(4_000);
    let largest = "9223372036854775807";
    let smallest = "-9223372036854775808";
    prints(&[
        (format!("seconds {largest} {largest} 0"), "seconds 0 0"),
        (format!("seconds {smallest} {smallest} 0"), "seconds 0 0"),
        (format!("seconds {zeros}3 1 0"), "seconds 0 2"),
        (format!("seconds -{zeros}3 1 0"), "seconds 0 -4"),
        ("seconds 3 1 4294967295".into(), "seconds 9 0"),
        (
            "suites 4294967295 ; 4294967295 ; 0 ; 0".into(),
            "suites 0 ; 1 4294967295 1 0",
        ),
    ]);
    errors(&[
        "seconds 9223372036854775808 1 0",
        "seconds 1 9223372036854775808 0",
        "seconds -9223372036854775809 1 0",
        "seconds 1 -9223372036854775809 0",
        "seconds 18446744073709551616 1 0",
        "seconds 18446744073709551619 1 0",
        "seconds -18446744073709551619 1 0",
        "seconds 340282366920938463463374607431768211456 1 0",
        "seconds 3 1 4294967296",
        "seconds 3 1 18446744073709551616",
        "suites 4294967296 ;;;",
    ]);
}

#[test]
fn numbers_of_records_and_events_fit_their_bits() {
    let row = |record: &str, event: &str| {
        format!("step {record} 0 0 0 0 0 0 0 0 0 0 0 ; {event} ;; 4096*00 ;;;;")
    };
    let answer = |number: u32, record: &str| {
        let zeros = "0 0 0 0 0 0 0 0 0 0 0";
        format!("step {number} ; {record} {zeros} ; {zeros} 0 0 0 0 0 ; ; 4096*00")
    };
    prints(&[
        (
            row("4294967295", "3 0 0 0 0 0 0 0"),
            answer(7, "4294967295"),
        ),
        (row("0", "4294967295 0 0 0 0 0 0 0"), answer(1, "0")),
        (row("0", "3 0 0 0 0 0 -1 -1"), answer(100, "0")),
    ]);
    errors(&[
        row("4294967296", "3 0 0 0 0 0 0 0"),
        row("-0", "3 0 0 0 0 0 0 0"),
        row("0", "4294967296 0 0 0 0 0 0 0"),
        row("0", "3 -0 0 0 0 0 0 0"),
        row("0", "3 0 0 0 0 -1 0 0"),
        row("0", "3 0 0 0 0 0 9223372036854775808 0"),
        row("0", "3 0 0 0 0 0 0 -9223372036854775809"),
    ]);
}

#[test]
fn lists_have_32_numbers_at_most() {
    let list = |len: usize| "1 ".repeat(len);
    let too_long = "suites 6 ; 0 0 0 0";
    prints(&[
        (format!("suites {};1;;", list(16)), "suites 0 ; 1 1 0 0"),
        (format!("suites {};1;;", list(17)), too_long),
        (format!("suites {};1;;", list(32)), too_long),
        (format!("suites ;;;{}", list(32)), too_long),
    ]);
    errors(&[
        format!("suites {};1;;", list(33)),
        format!("suites ;{};;", list(33)),
        format!("suites ;;{};", list(33)),
        format!("suites ;;;{}", list(33)),
    ]);
}
