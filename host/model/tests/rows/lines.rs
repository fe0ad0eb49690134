//! Lines, their ends and their length.

use crate::program::{errors, printed, prints};

#[test]
fn comments_and_empty_lines_are_copied() {
    let input = b"#\n# caf\xc3\xa9 \xff\x00 ;\r\n\n\n## \n#;*\n";
    assert_eq!(printed(input), input);
}

#[test]
fn last_line_may_lack_its_newline() {
    for (input, output) in [
        ("", ""),
        ("\n", "\n"),
        ("\n\n", "\n\n"),
        ("#", "#\n"),
        ("#\n", "#\n"),
        ("seconds 3 1 0", "seconds 0 2\n"),
        ("seconds 3 1 0\n", "seconds 0 2\n"),
        ("\nnothing", "\nerror in line 2\n"),
    ] {
        let came = printed(input.as_bytes());
        assert_eq!(String::from_utf8_lossy(&came), output, "{input:?}");
    }
}

/// "Lines are counted from 1, all of them."
#[test]
fn errors_are_numbered_by_line() {
    let input = b"wrong\n# wrong\n\nseconds 3 1 0\nwrong\n \nseconds 3 1 0";
    let output =
        b"error in line 1\n# wrong\n\nseconds 0 2\nerror in line 5\nerror in line 6\nseconds 0 2\n";
    assert_eq!(printed(input), output);
}

#[test]
fn lines_of_4096_bytes_are_the_longest() {
    let row = |len: usize| format!("{:<len$}", "seconds 3 1 0");
    let comment = |len: usize| format!("{:-<len$}", "#");
    prints(&[
        (row(4_096), "seconds 0 2".to_string()),
        (row(4_097), "error in line 2".into()),
        (comment(4_096), comment(4_096)),
        (comment(4_097), "error in line 4".into()),
        (row(50_000), "error in line 5".into()),
        (comment(50_000), "error in line 6".into()),
        ("seconds 3 1 0".into(), "seconds 0 2".into()),
    ]);
}

/// The last line too is read to its end.
#[test]
fn last_line_may_be_too_long() {
    for len in [4_097, 4_098, 100_000] {
        for byte in [b'#', b' ', 0] {
            let without_newline = vec![byte; len];
            assert_eq!(printed(&without_newline), b"error in line 1\n");
            let with_newline = [&without_newline[..], b"\n"].concat();
            assert_eq!(printed(&with_newline), b"error in line 1\n");
        }
    }
}

#[test]
fn any_bytes_may_stand_on_a_line() {
    let mut lines = vec![];
    for byte in (0..=255).filter(|byte| !b"\n#".contains(byte)) {
        lines.push(vec![byte]);
    }
    for byte in (0..=255).filter(|byte| !b"\n 0123456789".contains(byte)) {
        lines.push([b"seconds 3 1 0", &[byte][..]].concat());
    }
    errors(&lines);
}
