//! Checks of the reader: what it passes over, the forms of answers, and every error text.

use crate::script::replay;

/// The answers to a script, and the line for standard error if it is a bad one.
fn played(script: impl AsRef<[u8]>) -> (String, Option<String>) {
    let mut answers = Vec::new();
    let stop = replay(script.as_ref(), &mut answers).err();
    let error = stop.map(|stop| String::from_utf8_lossy(&stop.text()).into_owned());
    (String::from_utf8(answers).unwrap(), error)
}

fn answers(script: &str) -> String {
    let (answers, error) = played(script);
    assert_eq!(error, None);
    answers
}

/// The error of a line that stands behind these lines, with its number left out.
fn error_behind(lines: &str, bad: &str) -> String {
    let (_, error) = played(format!("{lines}{bad}\n"));
    let number = lines.lines().count() + 1;
    let error = error.unwrap_or_else(|| panic!("`{bad}` is taken"));
    let text = error.strip_prefix(&format!("error: line {number}: "));
    text.unwrap_or_else(|| panic!("`{error}` has another number than {number}"))
        .to_string()
}

const START: &str = "kernel slot deadline 7\n";
const RUN: &str = "kernel slot deadline 7\nrun\n";
const CLOSED: &str = "kernel slot deadline 7\nrun\nclose\n";

#[test]
fn the_answers_of_the_page() {
    let script = "kernel slot deadline 7\ncreate_mailbox 3 1 2\ncreate_task 5 40 0\nrun\n\
        send_no_wait 3 0102\nreceive_wait 3 4\nreceive_wait 3 4\nsend_no_wait 3 0102\n\
        remove_mailbox 9\nticks\ndeadline\nrunning\ncollect 4\ntick\nclose\n";
    assert_eq!(
        answers(script),
        "kernel slot deadline 7 -> OK\n\
        create_mailbox 3 1 2 -> OK\n\
        create_task 5 40 0 -> OK\n\
        run -> OK\n\
        send_no_wait 3 0102 -> OK message=7\n\
        receive_wait 3 4 -> OK message=7 length=2 buffer=0102aaaa\n\
        receive_wait 3 4 -> BLOCKED\n\
        send_no_wait 3 0102 -> OK message=8\n\
        remove_mailbox 9 -> refused 1 ANSWER_DUE layer=kernel place=5\n\
        ticks -> 0\n\
        deadline -> 40\n\
        running -> 5\n\
        collect 4 -> OK message=8 length=2 buffer=0102aaaa\n\
        tick -> readied=0 running=5\n\
        close -> accepted=2 queued=0 handed_over=2 withdrawn=0 displaced=0\n"
    );
}

#[test]
fn an_empty_script_and_one_without_calls() {
    assert_eq!(answers(""), "");
    assert_eq!(answers("\n \n\t\r\n# a\n  #b c\n#"), "");
}

#[test]
fn words_are_as_read_and_joined_by_single_blanks() {
    let script = "\t kernel  slot\tdeadline \r 007 \r\n#\nrun\r\ncreate_mailbox 00031 1 2\nsend_no_wait 31 aAFf";
    assert_eq!(
        answers(script),
        "kernel slot deadline 007 -> OK\n\
        run -> OK\n\
        create_mailbox 00031 1 2 -> OK\n\
        send_no_wait 31 aAFf -> OK message=7\n"
    );
}

#[test]
fn bytes_may_be_absent_and_upper_case_reads_as_lower_case() {
    let script = "create_mailbox 3 1 2\nsend_no_wait 3\nsend_no_wait 3 aBCd\nreceive_no_wait 3 3\n";
    assert_eq!(
        answers(&format!("{RUN}{script}"))
            .lines()
            .skip(3)
            .collect::<Vec<_>>(),
        [
            "send_no_wait 3 -> refused 10 WRONG_SIZE layer=mailbox place=3",
            "send_no_wait 3 aBCd -> OK message=7",
            "receive_no_wait 3 3 -> OK message=7 length=2 buffer=abcdaa",
        ]
    );
}

#[test]
fn a_buffer_is_printed_only_where_a_message_is_brought() {
    let script = "create_task 1 9 0\nwait 0\ntick\ncollect 4\ncollect 4\ncreate_mailbox 3 1 2\nreceive_no_wait 3 4\n";
    assert_eq!(
        answers(&format!("{RUN}{script}"))
            .lines()
            .skip(5)
            .collect::<Vec<_>>(),
        [
            "collect 4 -> OK",
            "collect 4 -> refused 2 NOTHING_DUE layer=kernel place=1",
            "create_mailbox 3 1 2 -> OK",
            "receive_no_wait 3 4 -> refused 13 EMPTY layer=mailbox place=3",
        ]
    );
}

#[test]
fn an_error_ends_the_program_and_lines_passed_over_count() {
    let (answers, error) = played("# a\n\nkernel slot deadline 7\n\nrun\nquit now\ntick\n");
    assert_eq!(answers, "kernel slot deadline 7 -> OK\nrun -> OK\n");
    assert_eq!(error.as_deref(), Some("error: line 6: no call `quit`"));
}

#[test]
fn no_call() {
    assert_eq!(
        error_behind("", "Kernel slot deadline 7"),
        "no call `Kernel`"
    );
    assert_eq!(error_behind(RUN, "tick# 1"), "no call `tick#`");
    assert_eq!(error_behind(CLOSED, "init_kernel"), "no call `init_kernel`");
    assert_eq!(error_behind(RUN, "tick\u{b}"), "no call `tick\u{b}`");
}

#[test]
fn words_need_not_be_text() {
    let mut answers = Vec::new();
    let stop = replay(&b"\xff\x00 1\n"[..], &mut answers).unwrap_err();
    assert_eq!(stop.text(), b"error: line 1: no call `\xff\x00`");
}

const CALLS: [&str; 19] = [
    "kernel",
    "create_task",
    "create_mailbox",
    "run",
    "terminate",
    "remove_mailbox",
    "send_wait",
    "send_no_wait",
    "receive_wait",
    "receive_no_wait",
    "wait",
    "collect",
    "set_deadline",
    "set_ticks",
    "ticks",
    "deadline",
    "running",
    "tick",
    "close",
];

/// The stage is looked at before the number of arguments.
#[test]
fn calls_of_another_stage() {
    for call in CALLS {
        let bad = format!("{call} 1 2 3 4 5");
        if call != "kernel" {
            assert_eq!(error_behind("", &bad), format!("{call} before kernel"));
        }
        match call {
            "kernel" => assert_eq!(error_behind(START, &bad), "kernel after kernel"),
            "create_task" | "create_mailbox" | "run" => {}
            _ => assert_eq!(error_behind(START, &bad), format!("{call} before run")),
        }
        assert_eq!(error_behind(CLOSED, &bad), format!("{call} after close"));
    }
    assert_eq!(
        error_behind(RUN, "kernel slot deadline 7"),
        "kernel after kernel"
    );
    assert_eq!(error_behind(RUN, "run"), "run after run");
}

#[test]
fn too_many_words_or_too_few() {
    assert_eq!(
        error_behind("", "kernel slot deadline"),
        "kernel takes 3 arguments, not 2"
    );
    assert_eq!(
        error_behind("", "kernel"),
        "kernel takes 3 arguments, not 0"
    );
    assert_eq!(
        error_behind("", "kernel a b c d"),
        "kernel takes 3 arguments, not 4"
    );
    assert_eq!(error_behind(START, "run 1"), "run takes 0 arguments, not 1");
    for (call, takes, fewest, most) in [
        ("create_task", "3 arguments", 3, 3),
        ("create_mailbox", "3 arguments", 3, 3),
        ("terminate", "0 arguments", 0, 0),
        ("remove_mailbox", "1 argument", 1, 1),
        ("send_wait", "1 or 2 arguments", 1, 2),
        ("send_no_wait", "1 or 2 arguments", 1, 2),
        ("receive_wait", "2 arguments", 2, 2),
        ("receive_no_wait", "2 arguments", 2, 2),
        ("wait", "1 argument", 1, 1),
        ("collect", "1 argument", 1, 1),
        ("set_deadline", "1 argument", 1, 1),
        ("set_ticks", "1 argument", 1, 1),
        ("ticks", "0 arguments", 0, 0),
        ("deadline", "0 arguments", 0, 0),
        ("running", "0 arguments", 0, 0),
        ("tick", "0 arguments", 0, 0),
        ("close", "0 arguments", 0, 0),
    ] {
        // The words are wrong ones, but their number is looked at first.
        let line = |words: usize| format!("{call}{}", " x".repeat(words));
        let more = most + 1;
        assert_eq!(
            error_behind(RUN, &line(more)),
            format!("{call} takes {takes}, not {more}")
        );
        if fewest > 0 {
            let fewer = fewest - 1;
            assert_eq!(
                error_behind(RUN, &line(fewer)),
                format!("{call} takes {takes}, not {fewer}")
            );
        }
    }
}

fn not_a_number(name: &str, max: &str, word: &str) -> String {
    format!("{name} is not a number from 0 to {max}: `{word}`")
}

#[test]
fn the_arguments_of_kernel() {
    assert_eq!(
        error_behind("", "kernel Slot x y"),
        "STORE is not slot or packed: `Slot`"
    );
    assert_eq!(
        error_behind("", "kernel packed levels y"),
        "ORDER is not deadline or level: `levels`"
    );
    let expected = not_a_number("FIRST", "4294967295", "4294967296");
    assert_eq!(error_behind("", "kernel packed level 4294967296"), expected);
}

#[test]
fn arguments_that_are_no_numbers_of_their_range() {
    const TOP: &str = "4294967295";
    for (line, name, max) in [
        ("create_task ? 0 0", "NUMBER", "255"),
        ("create_task 0 ? 0", "DEADLINE", TOP),
        ("create_task 0 0 ?", "LEVEL", "255"),
        ("create_mailbox ? 0 0", "NUMBER", "255"),
        ("create_mailbox 0 ? 0", "CAPACITY", "255"),
        ("create_mailbox 0 0 ?", "SIZE", "255"),
        ("remove_mailbox ?", "NUMBER", "255"),
        ("send_wait ? 01", "NUMBER", "255"),
        ("send_wait ?", "NUMBER", "255"),
        ("send_no_wait ? 01", "NUMBER", "255"),
        ("receive_wait ? 0", "NUMBER", "255"),
        ("receive_wait 0 ?", "LENGTH", "1024"),
        ("receive_no_wait ? 0", "NUMBER", "255"),
        ("receive_no_wait 0 ?", "LENGTH", "1024"),
        ("wait ?", "N", TOP),
        ("collect ?", "LENGTH", "1024"),
        ("set_deadline ?", "N", TOP),
        ("set_ticks ?", "N", TOP),
    ] {
        let above = (max.parse::<u64>().unwrap() + 1).to_string();
        let words = [
            &above[..],
            "x",
            "-1",
            "+1",
            "1a",
            "0x1",
            "1.0",
            "99999999999999999999999999",
            "\u{664}",
        ];
        for word in words {
            assert_eq!(
                error_behind(RUN, &line.replace('?', word)),
                not_a_number(name, max, word)
            );
        }
        // The largest one is taken, leading zeros too.
        for word in [max.to_string(), format!("000000000000000000000000{max}")] {
            answers(&format!("{RUN}{}\n", line.replace('?', &word)));
        }
    }
}

#[test]
fn arguments_are_looked_at_from_the_left() {
    assert_eq!(
        error_behind(RUN, "create_task 1 x y"),
        not_a_number("DEADLINE", "4294967295", "x")
    );
    assert_eq!(
        error_behind(RUN, "create_mailbox 256 x y"),
        not_a_number("NUMBER", "255", "256")
    );
    assert_eq!(
        error_behind(RUN, "send_wait 256 x"),
        not_a_number("NUMBER", "255", "256")
    );
}

#[test]
fn bytes_that_are_not_pairs_of_hexadecimal_digits() {
    for word in [
        "0",
        "012",
        "0g",
        "0x",
        "-1",
        "zz",
        "0102#",
        "\u{ff10}\u{ff10}",
    ] {
        for call in ["send_wait", "send_no_wait"] {
            let expected = format!("HEX is not pairs of hexadecimal digits: `{word}`");
            assert_eq!(error_behind(RUN, &format!("{call} 3 {word}")), expected);
        }
    }
}
