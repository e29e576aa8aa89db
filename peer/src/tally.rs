//! What made scripts meet: every refusal and every form of answer, each often, and deep states.
//! `cargo test tally -- --nocapture` prints the tables.

use crate::answer::{Answer, Status};
use crate::kernel::{Due, Kernel, Mailbox, Mode, Order, State, IDLE, LAST_MAILBOX, LAST_TASK, TOP};
use crate::make::{kind_of_seed, Maker};
use crate::script::{play_line, read_call, Call, Outcome, Stage};
use crate::store::StoreKind;
use std::collections::{BTreeMap, BTreeSet};

const LINES: u64 = 50_000;
/// How often everything has to be met, at the least, in a script of so many lines.
const OFTEN: u64 = 40;

/// The rows that each call can meet, as the table of calls has them.
const ROWS: [(&str, &[u8]); 13] = [
    ("create_task", &[1, 4, 5, 7]),
    ("create_mailbox", &[1, 4, 6, 7]),
    ("terminate", &[1, 3]),
    ("remove_mailbox", &[1, 4, 8, 9]),
    ("send_wait", &[1, 3, 4, 8, 10, 12, 14, 16, 20]),
    ("send_no_wait", &[1, 4, 8, 10, 12, 16, 20]),
    ("receive_wait", &[1, 3, 4, 8, 11, 14]),
    ("receive_no_wait", &[1, 4, 8, 11, 13]),
    ("wait", &[1, 3, 15]),
    ("collect", &[2, 11]),
    ("set_deadline", &[1, 3]),
    ("set_ticks", &[1]),
    ("tick", &[]),
];

/// The forms of answers of each call.
const FORMS: [(&str, &[&str]); 17] = [
    ("create_task", &["OK"]),
    ("create_mailbox", &["OK"]),
    ("terminate", &["OK"]),
    ("remove_mailbox", &["OK"]),
    ("send_wait", &["OK message", "BLOCKED message"]),
    ("send_no_wait", &["OK message", "OK message displaced"]),
    ("receive_wait", &["OK message length", "BLOCKED"]),
    ("receive_no_wait", &["OK message length"]),
    ("wait", &["BLOCKED"]),
    (
        "collect",
        &[
            "OK",
            "OK message",
            "OK message length",
            "DEADLINE_REACHED",
            "DEADLINE_REACHED message",
        ],
    ),
    ("set_deadline", &["OK"]),
    ("set_ticks", &["OK"]),
    ("ticks", &["a number"]),
    ("deadline", &["a number"]),
    ("running", &["a number"]),
    ("tick", &["readied none", "readied some"]),
    ("kernel", &[]),
];

/// Forms that a script has once at most.
const ONCE: [(&str, &str); 3] = [("kernel", "OK"), ("run", "OK"), ("close", "counts")];

/// Pairs of rows that can hold at once: the call has to answer the first of them.
const BOTH_HOLD: [(&str, &[(u8, u8)]); 7] = [
    ("create_task", &[(1, 4), (1, 5), (1, 7), (4, 5), (5, 7)]),
    ("create_mailbox", &[(1, 4), (1, 6), (1, 7), (4, 6), (6, 7)]),
    (
        "send_wait",
        &[
            (1, 4),
            (1, 8),
            (1, 10),
            (1, 12),
            (3, 4),
            (3, 8),
            (3, 10),
            (3, 12),
            (3, 14),
            (10, 12),
            (10, 14),
            (10, 16),
            (10, 20),
            (12, 14),
            (12, 16),
            (12, 20),
            (14, 16),
            (14, 20),
            (16, 20),
        ],
    ),
    (
        "send_no_wait",
        &[
            (1, 4),
            (1, 8),
            (1, 10),
            (1, 12),
            (1, 20),
            (10, 12),
            (10, 16),
            (10, 20),
            (12, 16),
            (12, 20),
            (16, 20),
        ],
    ),
    (
        "receive_wait",
        &[
            (1, 4),
            (1, 8),
            (1, 11),
            (1, 14),
            (3, 4),
            (3, 8),
            (3, 11),
            (3, 14),
            (11, 14),
        ],
    ),
    (
        "receive_no_wait",
        &[(1, 4), (1, 8), (1, 11), (1, 13), (11, 13)],
    ),
    ("wait", &[(1, 15), (3, 15)]),
];

/// All the rows of a call that hold, whichever of them is answered.
fn rows_that_hold(kernel: &Kernel, call: &Call) -> Vec<u8> {
    let mut rows = Vec::new();
    let mut add = |row, holds| {
        if holds {
            rows.push(row);
        }
    };
    let idle = kernel.running() == IDLE;
    add(1, kernel.due(kernel.running()).is_some());
    match *call {
        Call::CreateTask { number, level, .. } => {
            add(4, number == 0 || number > 63);
            add(5, level > 31);
            add(7, kernel.tasks().contains_key(&number));
        }
        Call::CreateMailbox {
            number,
            capacity,
            size,
        } => {
            add(4, number > 31);
            add(6, capacity == 0 || capacity > 16 || size == 0 || size > 128);
            add(7, kernel.mailboxes().contains_key(&number));
        }
        Call::SendWait { number, ref bytes } => {
            add(3, idle);
            add(4, number > 31);
            add(8, number <= 31 && !kernel.mailboxes().contains_key(&number));
            if let Some(mailbox) = kernel.mailboxes().get(&number) {
                add(10, bytes.len() != mailbox.size);
                add(12, mailbox.mode() == Some(Mode::NoWait));
                add(14, mailbox.queue.len() == mailbox.capacity);
                add(16, kernel.next_message().is_none());
                add(
                    20,
                    kernel.store().kind().cost(bytes.len()) > kernel.store().free(),
                );
            }
        }
        Call::SendNoWait { number, ref bytes } => {
            add(4, number > 31);
            add(8, number <= 31 && !kernel.mailboxes().contains_key(&number));
            if let Some(mailbox) = kernel.mailboxes().get(&number) {
                let displaces = mailbox.queue.len() == mailbox.capacity;
                add(10, bytes.len() != mailbox.size);
                add(12, mailbox.mode() == Some(Mode::Wait));
                add(16, kernel.next_message().is_none());
                add(
                    20,
                    !displaces && kernel.store().kind().cost(bytes.len()) > kernel.store().free(),
                );
            }
        }
        Call::ReceiveWait { number, length } => {
            add(3, idle);
            add(4, number > 31);
            add(8, number <= 31 && !kernel.mailboxes().contains_key(&number));
            if let Some(mailbox) = kernel.mailboxes().get(&number) {
                add(11, (length as usize) < mailbox.size);
                add(14, mailbox.receivers.len() == mailbox.capacity);
            }
        }
        Call::ReceiveNoWait { number, length } => {
            add(4, number > 31);
            add(8, number <= 31 && !kernel.mailboxes().contains_key(&number));
            if let Some(mailbox) = kernel.mailboxes().get(&number) {
                add(11, (length as usize) < mailbox.size);
                add(13, mailbox.queue.is_empty());
            }
        }
        Call::Wait { n } => {
            add(3, idle);
            add(
                15,
                u64::from(kernel.ticks()) + u64::from(n) > u64::from(TOP),
            );
        }
        _ => {}
    }
    rows
}

fn form_of(outcome: &Outcome) -> String {
    match outcome {
        Outcome::Done => "OK".to_string(),
        Outcome::Answered(answer) | Outcome::Brought(answer, _) => form_of_answer(answer),
        Outcome::Refused(refusal) => refused_form(refusal.number()),
        Outcome::Number(_) => "a number".to_string(),
        Outcome::Ticked { readied: 0, .. } => "readied none".to_string(),
        Outcome::Ticked { .. } => "readied some".to_string(),
        Outcome::Closed(_) => "counts".to_string(),
    }
}

fn form_of_answer(answer: &Answer) -> String {
    let mut form = answer.status.to_string();
    let fields = [
        (answer.message.is_some(), " message"),
        (answer.length.is_some(), " length"),
        (answer.displaced.is_some(), " displaced"),
    ];
    for (present, name) in fields {
        if present {
            form.push_str(name);
        }
    }
    form
}

fn refused_form(row: u8) -> String {
    format!("refused {row:02}")
}

/// All that has to be met, by call and form.
fn expected() -> BTreeSet<(String, String)> {
    let refusals = ROWS
        .iter()
        .flat_map(|(call, rows)| rows.iter().map(|row| (*call, refused_form(*row))));
    let answers = FORMS
        .iter()
        .flat_map(|(call, forms)| forms.iter().map(|form| (*call, form.to_string())));
    refusals
        .chain(answers)
        .map(|(call, form)| (call.to_string(), form))
        .collect()
}

#[derive(Default)]
struct Tally {
    forms: BTreeMap<(String, String), u64>,
    deep: BTreeMap<&'static str, u64>,
    /// How often two rows held at once, by call, the one answered and the other one.
    both: BTreeMap<(&'static str, u8, u8), u64>,
    /// The mailboxes from which messages were handed over that are not collected yet, by message.
    uncollected: BTreeMap<u32, Uncollected>,
}

struct Uncollected {
    mailbox: u8,
    removed: bool,
    /// Whether the receiver's deadline was reached while the answer was due.
    late: bool,
}

fn tally(seed: u64) -> Tally {
    let mut tally = Tally {
        deep: DEEP.iter().map(|&name| (name, 0)).collect(),
        ..Tally::default()
    };
    let mut stage = Stage::BeforeKernel;
    for line in Maker::new(seed, LINES, kind_of_seed(seed)) {
        let before = stage.kernel().cloned();
        let call = call_of(&line, &stage);
        let Some((words, outcome)) = play_line(line.as_bytes(), &mut stage).unwrap() else {
            continue;
        };
        let name = String::from_utf8(words[0].to_vec()).unwrap();
        *tally.forms.entry((name, form_of(&outcome))).or_default() += 1;
        if let (Some(before), Some(after)) = (before, stage.kernel()) {
            after.audit();
            tally.note_deep_states(&before, &call.unwrap(), &outcome, after);
        }
    }
    tally
}

fn call_of(line: &str, stage: &Stage) -> Option<Call> {
    let words: Vec<&[u8]> = line.split_ascii_whitespace().map(str::as_bytes).collect();
    read_call(&words.first().map(|_| words.clone())?, stage).ok()
}

const DEEP: [&str; 42] = [
    "63 tasks live",
    "32 mailboxes in use",
    "no task but task 0",
    "no mailbox",
    "task 0 runs",
    "task 0 runs while messages are queued",
    "a task is ready behind an equally urgent one",
    "16 messages of send_wait queued in one mailbox",
    "16 messages of send_no_wait queued in one mailbox",
    "16 receivers wait at one mailbox",
    "ten messages or more handed over and not collected",
    "no unit of the store is free",
    "counter TOP",
    "counter 0",
    "send takes the last unit",
    "send wants one unit more than is free",
    "STORE_FULL with some units free",
    "STORE_FULL for a waiting receiver",
    "displaces while less than its cost is free",
    "displaces at capacity 1",
    "displaces at capacity 16",
    "NUMBERS_SPENT at a full mailbox",
    "NUMBERS_SPENT for a waiting receiver",
    "EMPTY where receivers wait",
    "MIXED at a full mailbox",
    "a receiver runs before the task that sent to it",
    "a sender runs before the task that received from it",
    "a new task runs",
    "a new task is as urgent as the running one",
    "terminates while its messages are queued or others wait",
    "mailbox removed while a message from it is not collected",
    "collects a message of a removed mailbox",
    "collects after the deadline was reached meanwhile",
    "tick readies two or more",
    "tick readies equally urgent ones",
    "tick reaches deadline and wake tick of one",
    "tick reaches a deadline just now",
    "tick leaves a deadline one above",
    "tick withdraws a message that is not the oldest",
    "tick ends a receiver that is not the oldest",
    "tick at counter TOP readies",
    "set_ticks passes wake ticks",
];

impl Tally {
    fn note(&mut self, holds: bool, name: &'static str) {
        if holds {
            *self.deep.get_mut(name).expect("the name is listed") += 1;
        }
    }

    fn note_deep_states(
        &mut self,
        before: &Kernel,
        call: &Call,
        outcome: &Outcome,
        after: &Kernel,
    ) {
        self.note_state(after);
        self.note_rows(before, call, outcome);
        match *call {
            Call::SendWait { number, ref bytes } => {
                self.note_send(before, number, bytes, outcome, after)
            }
            Call::SendNoWait { number, ref bytes } => {
                self.note_send(before, number, bytes, outcome, after)
            }
            Call::ReceiveWait { number, .. } | Call::ReceiveNoWait { number, .. } => {
                self.note_receive(before, number, outcome, after);
            }
            Call::CreateTask { number, .. } => self.note_new_task(before, number, outcome, after),
            Call::Terminate if accepted(outcome) => {
                self.note(
                    before
                        .mailboxes()
                        .values()
                        .any(|mailbox| !mailbox.is_empty()),
                    "terminates while its messages are queued or others wait",
                );
            }
            Call::RemoveMailbox { number } if accepted(outcome) => {
                let mut any = false;
                for message in self
                    .uncollected
                    .values_mut()
                    .filter(|message| message.mailbox == number)
                {
                    message.removed = true;
                    any = true;
                }
                self.note(
                    any,
                    "mailbox removed while a message from it is not collected",
                );
            }
            Call::Collect { .. } => self.note_collect(outcome),
            Call::Tick => self.note_tick(before, outcome, after),
            Call::SetTicks { n } if accepted(outcome) => {
                let passed = |state: &State| matches!(state, State::Asleep { wake } if *wake < n);
                self.note(
                    before.tasks().values().any(|task| passed(&task.state)),
                    "set_ticks passes wake ticks",
                );
            }
            _ => {}
        }
    }

    fn note_rows(&mut self, before: &Kernel, call: &Call, outcome: &Outcome) {
        if !BOTH_HOLD.iter().any(|(name, _)| *name == call.name()) {
            return;
        }
        let answered = match outcome {
            Outcome::Refused(refusal) => Some(refusal.number()),
            _ => None,
        };
        let rows = rows_that_hold(before, call);
        assert_eq!(
            rows.first().copied(),
            answered,
            "the first row that holds is answered: {call:?}"
        );
        for &other in rows.iter().skip(1) {
            *self.both.entry((call.name(), rows[0], other)).or_default() += 1;
        }
    }

    fn note_state(&mut self, kernel: &Kernel) {
        self.note(
            kernel.tasks().len() == usize::from(LAST_TASK) + 1,
            "63 tasks live",
        );
        self.note(kernel.tasks().len() == 1, "no task but task 0");
        self.note(
            kernel.mailboxes().len() == usize::from(LAST_MAILBOX) + 1,
            "32 mailboxes in use",
        );
        self.note(kernel.mailboxes().is_empty(), "no mailbox");
        let idle = kernel.running() == IDLE;
        self.note(idle, "task 0 runs");
        self.note(
            idle && kernel.counts().queued > 0,
            "task 0 runs while messages are queued",
        );
        self.note(
            has_equals(kernel),
            "a task is ready behind an equally urgent one",
        );
        let some = |wanted: fn(&Mailbox) -> bool| kernel.mailboxes().values().any(wanted);
        self.note(
            some(|mailbox| mailbox.queue.len() == 16 && mailbox.mode() == Some(Mode::Wait)),
            "16 messages of send_wait queued in one mailbox",
        );
        self.note(
            some(|mailbox| mailbox.queue.len() == 16 && mailbox.mode() == Some(Mode::NoWait)),
            "16 messages of send_no_wait queued in one mailbox",
        );
        self.note(
            some(|mailbox| mailbox.receivers.len() == 16),
            "16 receivers wait at one mailbox",
        );
        let delivered = |number: &&u8| matches!(kernel.due(**number), Some(Due::Delivery { .. }));
        self.note(
            kernel.tasks().keys().filter(delivered).count() >= 10,
            "ten messages or more handed over and not collected",
        );
        self.note(kernel.store().free() == 0, "no unit of the store is free");
        self.note(kernel.ticks() == TOP, "counter TOP");
        self.note(kernel.ticks() == 0, "counter 0");
    }

    fn note_send(
        &mut self,
        before: &Kernel,
        number: u8,
        bytes: &[u8],
        outcome: &Outcome,
        after: &Kernel,
    ) {
        let Some(mailbox) = before.mailboxes().get(&number) else {
            return;
        };
        let receiver = mailbox.receivers.front().copied();
        match outcome {
            Outcome::Refused(refusal) => {
                let (row, units) = (refusal.number(), refusal.units());
                self.note(
                    row == 12 && mailbox.queue_is_full(),
                    "MIXED at a full mailbox",
                );
                self.note(
                    row == 16 && mailbox.queue_is_full(),
                    "NUMBERS_SPENT at a full mailbox",
                );
                self.note(
                    row == 16 && receiver.is_some(),
                    "NUMBERS_SPENT for a waiting receiver",
                );
                self.note(
                    row == 20 && receiver.is_some(),
                    "STORE_FULL for a waiting receiver",
                );
                if let Some((wanted, free)) = units {
                    self.note(wanted == free + 1, "send wants one unit more than is free");
                    self.note(free > 0, "STORE_FULL with some units free");
                }
            }
            Outcome::Answered(answer) => {
                let displaced = answer.displaced.is_some();
                let cost = before.store().kind().cost(bytes.len());
                self.note(
                    !displaced && after.store().free() == 0,
                    "send takes the last unit",
                );
                self.note(
                    displaced && before.store().free() < cost,
                    "displaces while less than its cost is free",
                );
                self.note(
                    displaced && mailbox.capacity == 1,
                    "displaces at capacity 1",
                );
                self.note(
                    displaced && mailbox.capacity == 16,
                    "displaces at capacity 16",
                );
                if let (Some(receiver), Some(message)) = (receiver, answer.message) {
                    let runs = after.running() == receiver;
                    self.note(runs, "a receiver runs before the task that sent to it");
                    let uncollected = Uncollected {
                        mailbox: number,
                        removed: false,
                        late: false,
                    };
                    self.uncollected.insert(message, uncollected);
                }
            }
            _ => {}
        }
    }

    fn note_receive(&mut self, before: &Kernel, number: u8, outcome: &Outcome, after: &Kernel) {
        let Some(mailbox) = before.mailboxes().get(&number) else {
            return;
        };
        let empty = matches!(outcome, Outcome::Refused(refusal) if refusal.number() == 13);
        self.note(
            empty && !mailbox.receivers.is_empty(),
            "EMPTY where receivers wait",
        );
        let sender = mailbox.queue.front().and_then(|oldest| oldest.sender);
        let taken = matches!(outcome, Outcome::Brought(..));
        self.note(
            taken && sender == Some(after.running()),
            "a sender runs before the task that received from it",
        );
    }

    fn note_new_task(&mut self, before: &Kernel, number: u8, outcome: &Outcome, after: &Kernel) {
        if !accepted(outcome) {
            return;
        }
        self.note(after.running() == number, "a new task runs");
        let running = before.running();
        self.note(
            running != IDLE && are_equal(after, running, number),
            "a new task is as urgent as the running one",
        );
    }

    fn note_collect(&mut self, outcome: &Outcome) {
        let Outcome::Brought(answer, _) = outcome else {
            return;
        };
        if let Some(message) = answer
            .message
            .and_then(|message| self.uncollected.remove(&message))
        {
            self.note(message.removed, "collects a message of a removed mailbox");
            self.note(
                message.late,
                "collects after the deadline was reached meanwhile",
            );
        }
    }

    fn note_tick(&mut self, before: &Kernel, outcome: &Outcome, after: &Kernel) {
        let &Outcome::Ticked { readied, .. } = outcome else {
            return;
        };
        self.note(readied >= 2, "tick readies two or more");
        self.note(
            readied > 0 && before.ticks() == TOP,
            "tick at counter TOP readies",
        );
        let now = after.ticks();
        let mut woken = Vec::new();
        for (&number, task) in before.tasks() {
            let reached = task.deadline <= now;
            match task.state {
                State::Ready {
                    due: Some(Due::Delivery { message }),
                } if reached => {
                    if let Some(message) = self.uncollected.get_mut(&message) {
                        message.late = true;
                    }
                }
                State::Ready { .. } => {}
                waiting => {
                    self.note(task.deadline == now, "tick reaches a deadline just now");
                    self.note(
                        now < TOP && task.deadline == now + 1,
                        "tick leaves a deadline one above",
                    );
                    self.note_end_of_waiting(before, number, waiting, reached, now);
                    if after.due(number).is_some() {
                        woken.push(number);
                    }
                }
            }
        }
        let equals = woken
            .windows(2)
            .any(|pair| are_equal(after, pair[0], pair[1]));
        self.note(equals, "tick readies equally urgent ones");
    }

    fn note_end_of_waiting(
        &mut self,
        before: &Kernel,
        number: u8,
        state: State,
        reached: bool,
        now: u32,
    ) {
        match state {
            State::Asleep { wake } => {
                self.note(
                    reached && wake <= now,
                    "tick reaches deadline and wake tick of one",
                );
            }
            State::Sending { mailbox, message } => {
                let oldest = before.mailboxes()[&mailbox].queue[0].message;
                self.note(
                    reached && message != oldest,
                    "tick withdraws a message that is not the oldest",
                );
            }
            State::Receiving { mailbox } => {
                let oldest = before.mailboxes()[&mailbox].receivers[0];
                self.note(
                    reached && number != oldest,
                    "tick ends a receiver that is not the oldest",
                );
            }
            State::Ready { .. } => {}
        }
    }

    fn print(&self, seed: u64) {
        println!("\nseed {seed}, {:?}, {LINES} lines", kind_of_seed(seed));
        for ((call, form), times) in &self.forms {
            println!("{times:7}  {call:16} {form}");
        }
        for ((call, row, other), times) in &self.both {
            println!("{times:7}  {call:16} answers {row:02} where {other:02} holds too");
        }
        for name in DEEP {
            println!("{:7}  {name}", self.deep[name]);
        }
    }
}

fn accepted(outcome: &Outcome) -> bool {
    matches!(outcome, Outcome::Answered(answer) if answer.status == Status::Ok)
}

fn are_equal(kernel: &Kernel, one: u8, other: u8) -> bool {
    let (one, other) = (&kernel.tasks()[&one], &kernel.tasks()[&other]);
    match kernel.order() {
        Order::Deadline => one.deadline == other.deadline,
        Order::Level => one.level == other.level,
    }
}

fn has_equals(kernel: &Kernel) -> bool {
    let ready = |number: &&u8| matches!(kernel.tasks()[*number].state, State::Ready { .. });
    let running = kernel.running();
    let others = kernel.tasks().keys().filter(ready);
    running != IDLE
        && others
            .into_iter()
            .any(|&other| other != running && are_equal(kernel, running, other))
}

#[test]
fn made_scripts_meet_everything_often() {
    let mut all_both = BTreeMap::new();
    for seed in 0..4 {
        let tally = tally(seed);
        tally.print(seed);
        check_forms(&tally, seed);
        check_deep_states(&tally, seed);
        for (pair, times) in tally.both {
            *all_both.entry(pair).or_insert(0) += times;
        }
    }
    check_both(&all_both);
}

/// Every form that the pages have, and no other one.
fn check_forms(tally: &Tally, seed: u64) {
    let expected = expected();
    for pair in &expected {
        let times = tally.forms.get(pair).copied().unwrap_or(0);
        assert!(
            times >= OFTEN,
            "seed {seed}: {pair:?} is met {times} times only"
        );
    }
    for (pair, times) in &tally.forms {
        let once = ONCE
            .iter()
            .any(|(call, form)| (*call, *form) == (&pair.0, &pair.1));
        assert!(
            expected.contains(pair) || (once && *times == 1),
            "{pair:?} is in no table"
        );
    }
}

fn check_deep_states(tally: &Tally, seed: u64) {
    for (&name, &times) in &tally.deep {
        // In the slot store each message costs one unit, so none is left where it is full.
        let impossible =
            name == "STORE_FULL with some units free" && kind_of_seed(seed).0 == StoreKind::Slot;
        assert!(
            impossible || times >= 10,
            "seed {seed}: {name} is met {times} times only"
        );
    }
}

/// Two rows at once: over the scripts together, as a script comes to the end of the numbers but once.
fn check_both(all_both: &BTreeMap<(&str, u8, u8), u64>) {
    for (call, pairs) in BOTH_HOLD {
        for &(row, other) in pairs {
            let times = all_both.get(&(call, row, other)).copied().unwrap_or(0);
            assert!(
                times >= 10,
                "{call} meets {row} and {other} at once {times} times only"
            );
        }
    }
}
