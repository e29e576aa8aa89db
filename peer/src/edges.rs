//! The edges of the interface, each as a transcript: calls, and the answers that the page tells.

use crate::answer::{Answer, Counts, Status};
use crate::kernel::{init_kernel, Order};
use crate::script::{play_line, Stage};
use crate::store::{Store, StoreKind};

/// Plays the calls of a transcript and compares each answer with the one that stands behind ` -> `.
/// Lines without that are passed over. The kernel is audited after each call.
fn check(transcript: &str) {
    let mut stage = Stage::BeforeKernel;
    for line in transcript.lines().map(str::trim) {
        let Some((call, answer)) = line.split_once(" -> ") else {
            continue;
        };
        let (_, outcome) = play_line(call.as_bytes(), &mut stage)
            .unwrap()
            .expect("a call");
        assert_eq!(
            outcome.to_string(),
            answer,
            "the answer of `{call}` in {transcript}"
        );
        if let Some(kernel) = stage.kernel() {
            kernel.audit();
        }
    }
}

/// The same transcript over all stores and orders. It begins behind the line of `kernel`;
/// the first message number is 1.
fn check_all(transcript: &str) {
    check_all_from(1, transcript);
}

fn check_all_from(first: u32, transcript: &str) {
    for kind in [
        "slot deadline",
        "slot level",
        "packed deadline",
        "packed level",
    ] {
        check(&format!("kernel {kind} {first} -> OK\n{transcript}"));
    }
}

#[test]
fn a_receivers_deadline_is_reached_by_the_tick_to_it() {
    check_all(
        "create_task 1 5 0 -> OK
        create_mailbox 3 1 2 -> OK
        run -> OK
        receive_wait 3 4 -> BLOCKED
        set_ticks 3 -> OK
        tick -> readied=0 running=0
        ticks -> 4
        tick -> readied=1 running=1
        ticks -> 5
        collect 0 -> DEADLINE_REACHED
        remove_mailbox 3 -> OK",
    );
}

#[test]
fn deadline_and_wake_tick_reached_by_the_same_tick() {
    check_all(
        "create_task 1 3 0 -> OK
        run -> OK
        wait 3 -> BLOCKED
        tick -> readied=0 running=0
        tick -> readied=0 running=0
        tick -> readied=1 running=1
        collect 0 -> DEADLINE_REACHED",
    );
}

#[test]
fn wait_0_ends_at_the_next_tick_as_wait_1_does() {
    for n in [0, 1] {
        check_all(&format!(
            "create_task 1 2 0 -> OK
            run -> OK
            wait {n} -> BLOCKED
            running -> 0
            tick -> readied=1 running=1
            collect 0 -> OK
            wait {n} -> BLOCKED
            tick -> readied=1 running=1
            collect 0 -> DEADLINE_REACHED"
        ));
    }
}

#[test]
fn the_longest_waits() {
    check_all(
        "create_task 1 4294967295 0 -> OK
        create_task 2 4294967295 0 -> OK
        run -> OK
        wait 4294967295 -> BLOCKED
        running -> 2
        tick -> readied=0 running=2
        wait 4294967295 -> refused 15 TOO_LONG layer=kernel place=2
        wait 4294967294 -> BLOCKED
        set_ticks 4294967293 -> OK
        tick -> readied=0 running=0
        tick -> readied=2 running=1",
    );
}

#[test]
fn waiting_with_a_deadline_already_reached() {
    check_all(
        "create_task 1 0 0 -> OK
        create_task 2 7 0 -> OK
        create_task 3 9 0 -> OK
        create_mailbox 0 1 1 -> OK
        create_mailbox 1 1 1 -> OK
        run -> OK
        set_ticks 10 -> OK
        wait 1000 -> BLOCKED
        receive_wait 0 1 -> BLOCKED
        send_wait 1 ff -> BLOCKED message=1
        running -> 0
        tick -> readied=3 running=1
        collect 0 -> DEADLINE_REACHED
        terminate -> OK
        collect 0 -> DEADLINE_REACHED
        terminate -> OK
        collect 0 -> DEADLINE_REACHED message=1
        close -> accepted=1 queued=0 handed_over=0 withdrawn=1 displaced=0",
    );
}

#[test]
fn a_tick_at_the_top_readies_all_that_wait_or_sleep() {
    check_all(
        "create_task 1 4294967295 0 -> OK
        create_task 2 4294967295 0 -> OK
        create_task 3 4294967295 0 -> OK
        create_mailbox 0 1 1 -> OK
        create_mailbox 1 1 1 -> OK
        run -> OK
        set_ticks 4294967295 -> OK
        wait 1 -> refused 15 TOO_LONG layer=kernel place=1
        wait 0 -> BLOCKED
        receive_wait 0 1 -> BLOCKED
        send_wait 1 ff -> BLOCKED message=1
        tick -> readied=3 running=1
        ticks -> 4294967295
        collect 0 -> DEADLINE_REACHED
        terminate -> OK
        collect 0 -> DEADLINE_REACHED
        terminate -> OK
        collect 0 -> DEADLINE_REACHED message=1",
    );
}

#[test]
fn set_ticks_readies_nobody() {
    check_all(
        "create_task 1 50 0 -> OK
        run -> OK
        wait 5 -> BLOCKED
        set_ticks 40 -> OK
        running -> 0
        tick -> readied=1 running=1
        ticks -> 41
        collect 0 -> OK",
    );
}

#[test]
fn an_answer_due_is_fixed_when_the_task_becomes_ready() {
    check(
        "kernel slot level 1 -> OK
        create_task 1 20 1 -> OK
        create_task 2 1000 0 -> OK
        create_mailbox 3 1 2 -> OK
        run -> OK
        wait 19 -> BLOCKED
        send_wait 3 0102 -> BLOCKED message=1
        set_ticks 18 -> OK
        tick -> readied=1 running=2
        collect 0 -> OK
        ticks -> 19
        receive_no_wait 3 2 -> OK message=1 length=2 buffer=0102
        set_ticks 30 -> OK
        tick -> readied=0 running=2
        ticks -> 31
        wait 100 -> BLOCKED
        running -> 1
        collect 0 -> OK message=1",
    );
}

#[test]
fn an_equally_urgent_new_task_does_not_run_first() {
    check(
        "kernel slot deadline 1 -> OK
        create_task 9 30 5 -> OK
        run -> OK
        create_task 4 30 0 -> OK
        running -> 9
        create_task 5 29 31 -> OK
        running -> 5
        terminate -> OK
        running -> 9
        terminate -> OK
        running -> 4",
    );
}

#[test]
fn the_least_urgent_tasks_run_before_task_0() {
    check(
        "kernel slot deadline 1 -> OK
        run -> OK
        running -> 0
        deadline -> 4294967295
        create_task 63 4294967295 31 -> OK
        running -> 63
        create_task 1 4294967295 0 -> OK
        running -> 63
        terminate -> OK
        running -> 1",
    );
    check(
        "kernel packed level 1 -> OK
        run -> OK
        create_task 63 4294967295 31 -> OK
        running -> 63
        create_task 1 0 31 -> OK
        running -> 63
        create_task 2 4294967295 30 -> OK
        running -> 2",
    );
}

#[test]
fn of_equally_urgent_tasks_a_tick_puts_the_smaller_number_in_front() {
    check(
        "kernel slot deadline 1 -> OK
        create_task 7 10 0 -> OK
        create_task 3 10 31 -> OK
        run -> OK
        wait 1 -> BLOCKED
        wait 1 -> BLOCKED
        tick -> readied=2 running=3
        collect 0 -> OK
        terminate -> OK
        running -> 7",
    );
}

#[test]
fn a_send_that_displaces() {
    check_all(
        "create_mailbox 3 1 2 -> OK
        run -> OK
        send_no_wait 3 0102 -> OK message=1
        send_no_wait 3 0304 -> OK message=2 displaced=1
        receive_no_wait 3 2 -> OK message=2 length=2 buffer=0304
        close -> accepted=2 queued=0 handed_over=1 withdrawn=0 displaced=1",
    );
}

#[test]
fn mixed_and_full() {
    check_all(
        "create_task 1 50 0 -> OK
        create_task 2 50 0 -> OK
        create_task 3 50 0 -> OK
        create_mailbox 3 1 1 -> OK
        create_mailbox 4 1 1 -> OK
        create_mailbox 5 1 1 -> OK
        run -> OK
        send_no_wait 3 01 -> OK message=1
        send_wait 3 01 -> refused 12 MIXED layer=mailbox place=3
        send_wait 4 01 -> BLOCKED message=2
        send_wait 4 01 -> refused 14 FULL layer=mailbox place=4
        send_no_wait 4 01 -> refused 12 MIXED layer=mailbox place=4
        receive_wait 5 1 -> BLOCKED
        receive_wait 5 1 -> refused 14 FULL layer=mailbox place=5
        receive_no_wait 5 1 -> refused 13 EMPTY layer=mailbox place=5",
    );
}

#[test]
fn no_bytes_are_of_the_wrong_size() {
    check_all(
        "create_task 1 50 0 -> OK
        create_mailbox 3 1 1 -> OK
        run -> OK
        send_no_wait 3 -> refused 10 WRONG_SIZE layer=mailbox place=3
        send_wait 3 -> refused 10 WRONG_SIZE layer=mailbox place=3
        send_wait 3 0102 -> refused 10 WRONG_SIZE layer=mailbox place=3",
    );
}

#[test]
fn a_short_buffer_goes_before_empty_and_full() {
    check_all(
        "create_task 1 50 0 -> OK
        create_task 2 50 0 -> OK
        create_mailbox 3 1 2 -> OK
        run -> OK
        receive_no_wait 3 1 -> refused 11 SHORT_BUFFER layer=mailbox place=3
        receive_no_wait 3 2 -> refused 13 EMPTY layer=mailbox place=3
        receive_wait 3 0 -> refused 11 SHORT_BUFFER layer=mailbox place=3
        receive_wait 3 2 -> BLOCKED
        receive_wait 3 1 -> refused 11 SHORT_BUFFER layer=mailbox place=3
        receive_wait 3 2 -> refused 14 FULL layer=mailbox place=3",
    );
}

#[test]
fn the_rest_of_a_buffer_stays() {
    check_all(
        "create_task 1 50 0 -> OK
        create_mailbox 3 1 2 -> OK
        run -> OK
        send_no_wait 3 0102 -> OK message=1
        receive_wait 3 4 -> OK message=1 length=2 buffer=0102aaaa",
    );
}

#[test]
fn the_last_message_number() {
    check(
        "kernel packed level 4294967295 -> OK
        create_task 9 50 0 -> OK
        create_mailbox 3 1 1 -> OK
        run -> OK
        send_no_wait 3 01 -> OK message=4294967295
        send_no_wait 3 02 -> refused 16 NUMBERS_SPENT layer=kernel place=9
        receive_wait 3 1 -> OK message=4294967295 length=1 buffer=01
        send_wait 3 02 -> refused 16 NUMBERS_SPENT layer=kernel place=9
        close -> accepted=1 queued=0 handed_over=1 withdrawn=0 displaced=0",
    );
}

/// Sends of one byte, as the messages from one number to another, to mailboxes 0 and up, 16 to each.
fn sends(from: u32, to: u32) -> String {
    let line = |message: u32| {
        format!(
            "send_no_wait {} 01 -> OK message={message}\n",
            (message - from) / 16
        )
    };
    (from..=to).map(line).collect()
}

const FOUR_LARGE_MAILBOXES: &str = "\
        create_mailbox 0 16 1 -> OK
        create_mailbox 1 16 1 -> OK
        create_mailbox 2 16 1 -> OK
        create_mailbox 3 16 1 -> OK
";

#[test]
fn bytes_for_a_receiver_cost_units_until_they_are_collected() {
    let sends = sends(2, 64);
    check(&format!(
        "kernel slot level 1 -> OK
        create_task 1 50 1 -> OK
        create_task 2 50 0 -> OK
        create_mailbox 9 1 1 -> OK
        {FOUR_LARGE_MAILBOXES}
        run -> OK
        wait 1 -> BLOCKED
        receive_wait 9 1 -> BLOCKED
        tick -> readied=1 running=2
        collect 0 -> OK
        send_no_wait 9 ee -> OK message=1
        {sends}
        send_no_wait 9 01 -> refused 20 STORE_FULL layer=store place=65 wanted=1 free=0
        send_wait 9 01 -> refused 20 STORE_FULL layer=store place=65 wanted=1 free=0
        wait 5 -> BLOCKED
        running -> 1
        collect 1 -> OK message=1 length=1 buffer=ee
        send_no_wait 9 01 -> OK message=65
        send_no_wait 9 02 -> OK message=66 displaced=65
        send_no_wait 3 03 -> refused 20 STORE_FULL layer=store place=67 wanted=1 free=0
        close -> accepted=66 queued=64 handed_over=1 withdrawn=0 displaced=1"
    ));
}

#[test]
fn the_slot_store_is_full_at_64_messages() {
    let sends = sends(1, 64);
    check(&format!(
        "kernel slot deadline 1 -> OK
        create_mailbox 9 1 1 -> OK
        {FOUR_LARGE_MAILBOXES}
        run -> OK
        {sends}
        send_no_wait 9 01 -> refused 20 STORE_FULL layer=store place=65 wanted=1 free=0
        send_no_wait 2 01 -> OK message=65 displaced=33
        receive_no_wait 0 1 -> OK message=1 length=1 buffer=01
        send_no_wait 9 01 -> OK message=66"
    ));
}

#[test]
fn the_packed_store_counts_bytes_and_16_more() {
    let bytes = "00".repeat(128);
    let send = |message| {
        format!(
            "send_no_wait {} {bytes} -> OK message={message}\n",
            message / 16
        )
    };
    let sends: String = (0..28).map(send).collect();
    let (fits, too_long) = ("11".repeat(48), "11".repeat(49));
    check(&format!(
        "kernel packed deadline 0 -> OK
        create_mailbox 0 16 128 -> OK
        create_mailbox 1 16 128 -> OK
        create_mailbox 2 1 48 -> OK
        create_mailbox 3 1 49 -> OK
        create_mailbox 4 1 1 -> OK
        run -> OK
        {sends}
        send_no_wait 3 {too_long} -> refused 20 STORE_FULL layer=store place=28 wanted=65 free=64
        send_no_wait 2 {fits} -> OK message=28
        send_no_wait 4 11 -> refused 20 STORE_FULL layer=store place=29 wanted=17 free=0
        send_no_wait 2 {fits} -> OK message=29 displaced=28
        send_no_wait 0 {bytes} -> OK message=30 displaced=0"
    ));
}

#[test]
fn numbers_spent_at_a_full_mailbox_drops_nothing() {
    check_all_from(
        4294967294,
        "create_mailbox 3 2 1 -> OK
        create_mailbox 4 1 1 -> OK
        run -> OK
        send_no_wait 3 01 -> OK message=4294967294
        send_no_wait 3 02 -> OK message=4294967295
        send_no_wait 3 03 -> refused 16 NUMBERS_SPENT layer=kernel place=0
        send_no_wait 4 03 -> refused 16 NUMBERS_SPENT layer=kernel place=0
        receive_no_wait 3 1 -> OK message=4294967294 length=1 buffer=01
        receive_no_wait 3 1 -> OK message=4294967295 length=1 buffer=02
        close -> accepted=2 queued=0 handed_over=2 withdrawn=0 displaced=0",
    );
}

#[test]
fn while_an_answer_is_due_only_some_calls_are_taken() {
    check_all(
        "create_task 1 5 0 -> OK
        create_mailbox 3 1 1 -> OK
        run -> OK
        wait 0 -> BLOCKED
        collect 0 -> refused 2 NOTHING_DUE layer=kernel place=0
        tick -> readied=1 running=1
        create_task 0 0 255 -> refused 1 ANSWER_DUE layer=kernel place=1
        create_mailbox 255 0 0 -> refused 1 ANSWER_DUE layer=kernel place=1
        terminate -> refused 1 ANSWER_DUE layer=kernel place=1
        remove_mailbox 255 -> refused 1 ANSWER_DUE layer=kernel place=1
        send_wait 255 -> refused 1 ANSWER_DUE layer=kernel place=1
        send_no_wait 255 -> refused 1 ANSWER_DUE layer=kernel place=1
        receive_wait 255 0 -> refused 1 ANSWER_DUE layer=kernel place=1
        receive_no_wait 255 0 -> refused 1 ANSWER_DUE layer=kernel place=1
        wait 4294967295 -> refused 1 ANSWER_DUE layer=kernel place=1
        set_deadline 0 -> refused 1 ANSWER_DUE layer=kernel place=1
        set_ticks 0 -> refused 1 ANSWER_DUE layer=kernel place=1
        ticks -> 1
        deadline -> 5
        running -> 1
        tick -> readied=0 running=1
        collect 0 -> OK
        collect 0 -> refused 2 NOTHING_DUE layer=kernel place=1",
    );
}

#[test]
fn an_answer_due_to_another_task_refuses_nothing() {
    check(
        "kernel slot level 1 -> OK
        create_task 1 50 1 -> OK
        create_task 2 50 0 -> OK
        run -> OK
        wait 1 -> BLOCKED
        wait 0 -> BLOCKED
        tick -> readied=2 running=2
        collect 0 -> OK
        set_ticks 7 -> OK
        terminate -> OK
        set_ticks 7 -> refused 1 ANSWER_DUE layer=kernel place=1
        close -> accepted=0 queued=0 handed_over=0 withdrawn=0 displaced=0",
    );
}

#[test]
fn what_task_0_may_not_do() {
    check_all(
        "create_mailbox 3 1 1 -> OK
        run -> OK
        send_wait 255 -> refused 3 IDLE_TASK layer=kernel place=0
        receive_wait 255 0 -> refused 3 IDLE_TASK layer=kernel place=0
        wait 0 -> refused 3 IDLE_TASK layer=kernel place=0
        terminate -> refused 3 IDLE_TASK layer=kernel place=0
        set_deadline 5 -> refused 3 IDLE_TASK layer=kernel place=0
        send_no_wait 3 01 -> OK message=1
        receive_no_wait 3 1 -> OK message=1 length=1 buffer=01
        set_ticks 5 -> OK",
    );
}

#[test]
fn the_rows_of_the_create_calls_in_their_order() {
    check_all(
        "create_task 0 0 32 -> refused 4 BAD_NUMBER layer=kernel place=0
        create_task 64 0 0 -> refused 4 BAD_NUMBER layer=kernel place=64
        create_task 63 0 31 -> OK
        create_task 63 0 32 -> refused 5 BAD_LEVEL layer=kernel place=63
        create_task 63 0 31 -> refused 7 TAKEN layer=kernel place=63
        create_mailbox 32 0 0 -> refused 4 BAD_NUMBER layer=kernel place=32
        create_mailbox 31 16 128 -> OK
        create_mailbox 31 0 1 -> refused 6 BAD_SHAPE layer=kernel place=31
        create_mailbox 31 17 1 -> refused 6 BAD_SHAPE layer=kernel place=31
        create_mailbox 31 1 0 -> refused 6 BAD_SHAPE layer=kernel place=31
        create_mailbox 31 1 129 -> refused 6 BAD_SHAPE layer=kernel place=31
        create_mailbox 31 1 1 -> refused 7 TAKEN layer=kernel place=31
        run -> OK
        create_task 63 0 32 -> refused 5 BAD_LEVEL layer=kernel place=63
        create_mailbox 31 1 1 -> refused 7 TAKEN layer=kernel place=31",
    );
}

#[test]
fn a_mailbox_is_removed_only_when_empty() {
    check_all(
        "create_task 1 9 0 -> OK
        create_mailbox 3 1 1 -> OK
        create_mailbox 4 1 1 -> OK
        run -> OK
        remove_mailbox 32 -> refused 4 BAD_NUMBER layer=kernel place=32
        remove_mailbox 9 -> refused 8 NO_MAILBOX layer=mailbox place=9
        send_no_wait 3 01 -> OK message=1
        remove_mailbox 3 -> refused 9 NOT_EMPTY layer=mailbox place=3
        receive_wait 4 1 -> BLOCKED
        remove_mailbox 4 -> refused 9 NOT_EMPTY layer=mailbox place=4
        receive_no_wait 3 1 -> OK message=1 length=1 buffer=01
        remove_mailbox 3 -> OK
        send_no_wait 3 01 -> refused 8 NO_MAILBOX layer=mailbox place=3
        create_mailbox 3 2 2 -> OK",
    );
}

#[test]
fn a_message_of_a_removed_mailbox_is_collected_all_the_same() {
    check(
        "kernel packed level 1 -> OK
        create_task 1 9 1 -> OK
        create_task 2 9 0 -> OK
        create_mailbox 3 1 2 -> OK
        run -> OK
        wait 0 -> BLOCKED
        receive_wait 3 2 -> BLOCKED
        tick -> readied=1 running=2
        collect 0 -> OK
        send_wait 3 0102 -> OK message=1
        remove_mailbox 3 -> OK
        create_mailbox 3 1 9 -> OK
        terminate -> OK
        collect 1 -> refused 11 SHORT_BUFFER layer=kernel place=1
        collect 3 -> OK message=1 length=2 buffer=0102aa",
    );
}

#[test]
fn messages_that_a_task_sent_without_waiting_outlive_it() {
    check_all(
        "create_task 1 9 0 -> OK
        create_mailbox 3 1 1 -> OK
        run -> OK
        send_no_wait 3 01 -> OK message=1
        terminate -> OK
        create_task 1 9 0 -> OK
        receive_wait 3 1 -> OK message=1 length=1 buffer=01",
    );
}

#[test]
fn set_deadline_enters_the_running_task_again() {
    check(
        "kernel slot level 1 -> OK
        create_task 1 9 4 -> OK
        create_task 2 9 4 -> OK
        run -> OK
        set_deadline 9 -> OK
        running -> 2
        set_deadline 0 -> OK
        running -> 1
        deadline -> 9",
    );
    check(
        "kernel slot deadline 1 -> OK
        create_task 1 9 4 -> OK
        create_task 2 10 4 -> OK
        run -> OK
        set_deadline 9 -> OK
        running -> 1
        set_deadline 10 -> OK
        running -> 2
        set_deadline 4294967295 -> OK
        running -> 1
        set_deadline 4294967295 -> OK
        running -> 2",
    );
}

#[test]
fn a_message_is_withdrawn_wherever_it_stands() {
    check(
        "kernel packed level 7 -> OK
        create_task 1 50 0 -> OK
        create_task 2 5 0 -> OK
        create_task 3 50 0 -> OK
        create_mailbox 0 3 1 -> OK
        run -> OK
        send_wait 0 01 -> BLOCKED message=7
        send_wait 0 02 -> BLOCKED message=8
        send_wait 0 03 -> BLOCKED message=9
        set_ticks 4 -> OK
        tick -> readied=1 running=2
        collect 0 -> DEADLINE_REACHED message=8
        receive_wait 0 1 -> OK message=7 length=1 buffer=01
        receive_wait 0 1 -> OK message=9 length=1 buffer=03
        terminate -> OK
        collect 0 -> OK message=7
        close -> accepted=3 queued=0 handed_over=2 withdrawn=1 displaced=0",
    );
}

#[test]
fn receivers_are_served_oldest_first_and_leave_from_any_place() {
    check(
        "kernel slot level 1 -> OK
        create_task 1 50 2 -> OK
        create_task 2 5 2 -> OK
        create_task 3 50 2 -> OK
        create_mailbox 0 3 1 -> OK
        run -> OK
        receive_wait 0 1 -> BLOCKED
        receive_wait 0 1 -> BLOCKED
        receive_wait 0 1 -> BLOCKED
        set_ticks 4 -> OK
        create_task 4 50 1 -> OK
        tick -> readied=1 running=4
        send_no_wait 0 01 -> OK message=1
        send_wait 0 02 -> OK message=2
        send_no_wait 0 03 -> OK message=3
        terminate -> OK
        running -> 2
        collect 0 -> DEADLINE_REACHED
        terminate -> OK
        running -> 1
        collect 1 -> OK message=1 length=1 buffer=01
        terminate -> OK
        running -> 3
        collect 1 -> OK message=2 length=1 buffer=02
        close -> accepted=3 queued=1 handed_over=2 withdrawn=0 displaced=0",
    );
}

#[test]
fn run_begins_at_counter_0_and_tick_stops_at_the_top() {
    check_all(
        "create_task 1 9 0 -> OK
        run -> OK
        ticks -> 0
        set_ticks 4294967294 -> OK
        tick -> readied=0 running=1
        ticks -> 4294967295
        tick -> readied=0 running=1
        ticks -> 4294967295
        set_ticks 3 -> OK
        ticks -> 3",
    );
}

#[test]
fn the_rows_of_a_send_in_their_order() {
    let sends = sends(4294967232, 4294967295);
    check(&format!(
        "kernel slot deadline 4294967232 -> OK
        create_task 1 9 0 -> OK
        create_mailbox 9 1 1 -> OK
        {FOUR_LARGE_MAILBOXES}
        run -> OK
        {sends}
        send_no_wait 9 01 -> refused 16 NUMBERS_SPENT layer=kernel place=1
        send_wait 9 01 -> refused 16 NUMBERS_SPENT layer=kernel place=1
        send_wait 0 01 -> refused 12 MIXED layer=mailbox place=0
        send_wait 0 0101 -> refused 10 WRONG_SIZE layer=mailbox place=0
        send_no_wait 0 01 -> refused 16 NUMBERS_SPENT layer=kernel place=1"
    ));
    check(
        "kernel slot deadline 4294967295 -> OK
        create_task 1 9 0 -> OK
        create_task 2 9 0 -> OK
        create_mailbox 9 1 1 -> OK
        run -> OK
        send_wait 9 01 -> BLOCKED message=4294967295
        send_wait 9 01 -> refused 14 FULL layer=mailbox place=9
        send_no_wait 9 01 -> refused 12 MIXED layer=mailbox place=9
        send_wait 9 0101 -> refused 10 WRONG_SIZE layer=mailbox place=9
        send_no_wait 9 0101 -> refused 10 WRONG_SIZE layer=mailbox place=9",
    );
}

/// The example that the page gives for Rust.
#[test]
fn the_example_of_the_page() {
    let mut start = init_kernel(Store::new(StoreKind::Slot), Order::Deadline, 7);
    start.create_task(1, 10, 0).unwrap();
    start.create_task(2, 20, 0).unwrap();
    start.create_mailbox(3, 2, 2).unwrap();
    let mut kernel = start.run();
    let mut buffer = *b"....";
    assert_eq!(
        kernel.receive_wait(3, &mut buffer),
        Ok(Answer::of(Status::Blocked))
    );
    assert_eq!(
        kernel.send_wait(3, b"hi"),
        Ok(Answer::of(Status::Ok).with_message(7))
    );
    let brought = Answer::of(Status::Ok).with_message(7).with_length(2);
    assert_eq!(kernel.collect(&mut buffer), Ok(brought));
    assert_eq!(&buffer, b"hi..");
    assert_eq!(kernel.tick(), (0, 1));
    let counts = Counts {
        accepted: 1,
        handed_over: 1,
        ..Counts::default()
    };
    assert_eq!(kernel.close(), counts);
}
