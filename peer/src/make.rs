//! The maker of random scripts.
//!
//! It holds a kernel of its own and plays on it each call that it makes. What it calls next depends on
//! what stands in that kernel, so that full mailboxes, full stores, deadlines just reached and the like
//! come often. A script goes through phases (gathering receivers, filling mailboxes, draining them ..),
//! each with weights of its own, so that a long script keeps reaching states of many kinds.

mod arguments;
mod phases;
mod scenes;

use crate::kernel::{Due, Kernel, Mode, Order, IDLE, LAST_TASK, TOP};
use crate::random::Random;
use crate::script::{Call, Stage};
use crate::store::StoreKind;
use phases::{Move, Phase, MOVES, PHASES};
use std::collections::VecDeque;

/// From when on the maker looks to the end of the message numbers.
const LAST_NUMBERS: u32 = 120;

pub type Kind = (StoreKind, Order);

/// The kind of kernel that a seed stands for, where none is named.
pub fn kind_of_seed(seed: u64) -> Kind {
    match seed % 4 {
        0 => (StoreKind::Slot, Order::Deadline),
        1 => (StoreKind::Slot, Order::Level),
        2 => (StoreKind::Packed, Order::Deadline),
        _ => (StoreKind::Packed, Order::Level),
    }
}

/// Makes a script, line by line.
pub struct Maker {
    random: Random,
    stage: Stage,
    opening: Call,
    lines_left: u64,
    start_up_left: u64,
    longest_phase: u32,
    phase: Phase,
    phase_left: u32,
    /// How many tasks, mailboxes and queued messages there should be, more or less.
    wished_tasks: usize,
    wished_mailboxes: usize,
    wished_messages: u64,
    /// Calls that are to come next.
    plan: VecDeque<Call>,
    /// The mailbox of the last message that a send gave to a waiting receiver.
    last_delivery: Option<u8>,
    closes: bool,
}

impl Maker {
    pub fn new(seed: u64, lines: u64, kind: Kind) -> Maker {
        let first = first_number(seed, lines, kind);
        Maker::with_first(seed, lines, kind, first)
    }

    fn with_first(seed: u64, lines: u64, (store, order): Kind, first: u32) -> Maker {
        let mut random = Random::new(seed);
        let longest_start_up = (lines / 4).min(120) as u32;
        Maker {
            start_up_left: u64::from(random.between(0, longest_start_up)),
            longest_phase: (lines / 4).clamp(20, 240) as u32,
            closes: random.one_in(8),
            random,
            stage: Stage::BeforeKernel,
            opening: Call::Kernel {
                store,
                order,
                first,
            },
            lines_left: lines,
            phase: Phase::Populate,
            phase_left: 20,
            wished_tasks: 20,
            wished_mailboxes: 10,
            wished_messages: 100,
            plan: VecDeque::new(),
            last_delivery: None,
        }
    }

    fn kernel(&self) -> &Kernel {
        self.stage.kernel().expect("the script has its kernel")
    }
}

/// The first message number. What else the maker does goes by the numbers only when few are left, so a
/// script can be rehearsed to find the first number with which they are spent near a line of one's choice.
fn first_number(seed: u64, lines: u64, kind: Kind) -> u32 {
    let mut random = Random::new(!seed);
    let long = lines >= 2000;
    let way = if long {
        4
    } else {
        random.weighted(&[2, 1, 2, 1, 2])
    };
    match way {
        0 => TOP - random.below(40),
        1 => random.below(2),
        2 => (1 << random.one_of(&[8, 16, 24, 31])) - random.below(40),
        3 => random.word(),
        _ => {
            let percent = if long {
                random.between(5, 12)
            } else {
                random.between(5, 60)
            };
            let lines_without_numbers = (lines * u64::from(percent) / 100).min(10_000);
            let accepted = rehearse(seed, lines, kind, lines - lines_without_numbers);
            // So many sends use the numbers from this one to TOP.
            TOP - accepted.saturating_sub(1) as u32
        }
    }
}

/// How many sends are accepted in the first lines of a script.
fn rehearse(seed: u64, lines: u64, kind: Kind, first_lines: u64) -> u64 {
    let mut maker = Maker::with_first(seed, lines, kind, 0);
    for _ in 0..first_lines {
        maker.next();
    }
    maker
        .stage
        .kernel()
        .map_or(0, |kernel| kernel.counts().accepted)
}

impl Iterator for Maker {
    type Item = String;

    fn next(&mut self) -> Option<String> {
        self.lines_left = self.lines_left.checked_sub(1)?;
        let last = self.lines_left == 0;
        if !last && self.random.one_in(200) {
            return Some(self.passed_over());
        }
        let call = self.next_call(last);
        self.play(&call);
        Some(self.dressed(&call))
    }
}

/// Lines.
impl Maker {
    fn play(&mut self, call: &Call) {
        if let Call::SendWait { number, .. } | Call::SendNoWait { number, .. } = *call {
            let mailbox = self.kernel().mailboxes().get(&number);
            if mailbox.is_some_and(|mailbox| !mailbox.receivers.is_empty()) {
                self.last_delivery = Some(number);
            }
        }
        self.stage.play(call);
    }

    /// A line without a call.
    fn passed_over(&mut self) -> String {
        let lines = [
            "",
            "# tick",
            "#",
            "#close now",
            " ",
            "\t",
            "\r",
            " \t # 1 2 3 \r",
            "## run",
        ];
        self.random.one_of(&lines).to_string()
    }

    /// The call as a line; now and then in one of the other ways in which it may be written.
    fn dressed(&mut self, call: &Call) -> String {
        let mut words = call.arguments();
        let is_send = matches!(call, Call::SendWait { .. } | Call::SendNoWait { .. });
        if is_send && words.len() == 2 && self.random.one_in(10) {
            words[1] = self.in_other_case(&words[1].clone());
        }
        if self.random.one_in(80) {
            // The word of a number; bytes are not one, though they may be digits alone.
            let numbers = if is_send { 1 } else { words.len() };
            for word in words.iter_mut().take(numbers) {
                if word.bytes().all(|character| character.is_ascii_digit()) {
                    word.insert_str(
                        0,
                        self.random.one_of(&["0", "00", "0000000000000000000000"]),
                    );
                }
            }
        }
        words.insert(0, call.name().to_string());
        if self.random.one_in(80) {
            self.oddly_spaced(&words)
        } else {
            words.join(" ")
        }
    }

    fn in_other_case(&mut self, hex: &str) -> String {
        if self.random.one_in(2) {
            return hex.to_ascii_uppercase();
        }
        let mut either = |digit: char| {
            if self.random.one_in(2) {
                digit.to_ascii_uppercase()
            } else {
                digit
            }
        };
        hex.chars().map(&mut either).collect()
    }

    fn oddly_spaced(&mut self, words: &[String]) -> String {
        let mut line = self.random.one_of(&["", " ", "\t", "\r"]).to_string();
        for word in words {
            line.push_str(word);
            line.push_str(self.random.one_of(&[" ", "  ", "\t", " \t ", "\r", " \r "]));
        }
        line
    }
}

/// Which call comes next.
impl Maker {
    fn next_call(&mut self, last: bool) -> Call {
        match self.stage {
            Stage::BeforeKernel => self.opening.clone(),
            Stage::StartUp(_) if self.start_up_left == 0 => Call::Run,
            Stage::StartUp(_) => self.start_up_call(),
            Stage::Running(_) if last && self.closes => Call::Close,
            Stage::Running(_) => self.running_call(),
            Stage::Closed => unreachable!("only the last line closes"),
        }
    }

    fn start_up_call(&mut self) -> Call {
        self.start_up_left -= 1;
        if self.random.percent(60) {
            self.create_task()
        } else {
            self.create_mailbox()
        }
    }

    fn running_call(&mut self) -> Call {
        self.advance_phase();
        let running = self.kernel().running();
        if let Some(due) = self.kernel().due(running) {
            return self.call_with_answer_due(due);
        }
        if let Some(call) = self.plan.pop_front() {
            return call;
        }
        if let Some(call) = self.call_towards_wishes() {
            return call;
        }
        if running == IDLE {
            match self.random.weighted(&[70, 15, 15]) {
                0 => return self.idle_call(),
                1 => return self.weighted_call(&Phase::Chaos.weights()),
                _ => {}
            }
        }
        let weights = self.phase.weights();
        self.weighted_call(&weights)
    }

    /// Now and then a call that leads to as many tasks, mailboxes and messages as are wished, or to
    /// where other states can be reached from.
    fn call_towards_wishes(&mut self) -> Option<Call> {
        let steps = [
            Maker::towards_full_mailboxes_at_the_end,
            Maker::towards_wished_tasks,
            Maker::towards_wished_mailboxes,
            Maker::towards_wished_messages,
            Maker::away_from_the_top,
            Maker::towards_the_last_units,
        ];
        steps.iter().find_map(|step| step(self))
    }

    fn towards_full_mailboxes_at_the_end(&mut self) -> Option<Call> {
        let chance = if self.few_numbers(8) { 60 } else { 20 };
        let wished = self.few_numbers(LAST_NUMBERS) && !self.store_is_full();
        if wished && self.random.percent(chance) {
            if self.few_numbers(16) || self.random.one_in(2) {
                self.plan_full_mailbox();
            } else {
                self.plan_last_units();
            }
        }
        self.plan.pop_front()
    }

    fn towards_wished_tasks(&mut self) -> Option<Call> {
        let tasks = self.kernel().tasks().len() - 1;
        let gathers = matches!(self.phase, Phase::Populate | Phase::Gather | Phase::Crowd);
        let needed = gathers || self.few_numbers(LAST_NUMBERS);
        if needed && tasks < self.wished_tasks && self.random.percent(30) {
            return Some(self.create_task());
        }
        let surplus = tasks > self.wished_tasks + 4 && self.kernel().running() != IDLE;
        (surplus && self.random.percent(15)).then_some(Call::Terminate)
    }

    fn towards_wished_mailboxes(&mut self) -> Option<Call> {
        let mailboxes = self.kernel().mailboxes().len();
        let all = self.phase == Phase::Populate || self.wished_mailboxes == 32;
        let wished = if all {
            self.wished_mailboxes
        } else {
            self.wished_mailboxes / 2
        };
        if mailboxes < wished && self.random.percent(15) {
            return Some(self.create_mailbox());
        }
        let surplus = mailboxes > self.wished_mailboxes + 2;
        let chance = if self.numbers_are_spent() { 3 } else { 25 };
        (surplus && self.random.percent(chance)).then(|| self.empty_or_remove_mailbox())
    }

    fn towards_wished_messages(&mut self) -> Option<Call> {
        let surplus = self.kernel().counts().queued > self.wished_messages;
        let full = self.store_is_full() && self.phase != Phase::Fill;
        let wished = (surplus || full) && !self.numbers_are_spent();
        (wished && self.random.percent(30)).then(|| self.receive_some_message())
    }

    fn away_from_the_top(&mut self) -> Option<Call> {
        let late = self.kernel().ticks() >= TOP - 1;
        (late && self.random.percent(10)).then(|| Call::SetTicks {
            n: self.random.below(100),
        })
    }

    fn towards_the_last_units(&mut self) -> Option<Call> {
        let store = self.kernel().store();
        let few = store.kind() == StoreKind::Packed && (17..=16 + 128).contains(&store.free());
        if few && self.random.percent(20) {
            self.plan_last_units();
        }
        self.plan.pop_front()
    }

    fn store_is_full(&self) -> bool {
        let store = self.kernel().store();
        store.free() < store.kind().cost(1)
    }

    fn numbers_are_spent(&self) -> bool {
        self.kernel().next_message().is_none()
    }

    /// Whether message numbers are left, but fewer than so many.
    fn few_numbers(&self, many: u32) -> bool {
        self.kernel()
            .next_message()
            .is_some_and(|next| next > TOP - many)
    }

    fn weighted_call(&mut self, weights: &[u32; 16]) -> Call {
        let chosen = MOVES[self.random.weighted(weights)];
        self.call_of(chosen)
    }

    fn call_with_answer_due(&mut self, due: Due) -> Call {
        if self.random.percent(70) {
            return self.collect(Some(due));
        }
        if self.random.percent(30) {
            self.plan.clear();
        }
        if let (true, Some(call)) = (self.random.one_in(2), self.plan.pop_front()) {
            return call;
        }
        // No scene: it would be begun in vain.
        let mut weights = Phase::Chaos.weights();
        weights[Move::Scene as usize] = 0;
        weights[Move::Collect as usize] = 0;
        weights[Move::Clash as usize] *= 3;
        weights[Move::Terminate as usize] *= 2;
        self.weighted_call(&weights)
    }

    /// Where task 0 runs, most of what a phase wants would be refused: other tasks have to come.
    fn idle_call(&mut self) -> Call {
        let room = self.kernel().tasks().len() <= usize::from(LAST_TASK);
        let gathers = matches!(self.phase, Phase::Gather | Phase::Crowd);
        if gathers && !room && self.random.one_in(10) {
            self.phase_left = 0;
        }
        let weights = match (self.phase, room) {
            // tick, create_task, set_ticks, send_no_wait, receive_no_wait, scene, clash
            (Phase::Gather | Phase::Crowd, true) => [2, 60, 1, 3, 3, 2, 8],
            (Phase::Deliver, _) => [3, 5, 1, 15, 3, 40, 8],
            (Phase::Fill, _) => [5, 5, 3, 60, 5, 15, 8],
            (Phase::Drain, _) => [10, 5, 5, 3, 40, 5, 8],
            (Phase::Clockwork, _) => [40, 10, 20, 3, 3, 10, 8],
            _ => [25, 15, 10, 12, 12, 8, 8],
        };
        let moves = [
            Move::Tick,
            Move::CreateTask,
            Move::SetTicks,
            Move::SendNoWait,
            Move::ReceiveNoWait,
            Move::Scene,
            Move::Clash,
        ];
        let chosen = moves[self.random.weighted(&weights)];
        self.call_of(chosen)
    }

    fn advance_phase(&mut self) {
        if self.few_numbers(LAST_NUMBERS) && self.phase != Phase::Fill {
            // Mailboxes and the store are to be full when the numbers are spent.
            self.phase = Phase::Fill;
            self.phase_left = 60;
            self.wished_messages = 300;
            self.wished_tasks = 30;
            self.plan.clear();
            return;
        }
        if self.phase_left > 0 {
            self.phase_left -= 1;
            return;
        }
        let usual: &[Phase] = match self.phase {
            Phase::Populate => &[Phase::Gather, Phase::Crowd, Phase::Fill, Phase::Chaos],
            Phase::Gather => &[Phase::Deliver, Phase::Deliver, Phase::Clockwork],
            Phase::Deliver => &[Phase::Fill, Phase::Teardown, Phase::Chaos, Phase::Clockwork],
            Phase::Crowd => &[Phase::Clockwork, Phase::Drain, Phase::Chaos],
            Phase::Fill => &[Phase::Chaos, Phase::Drain, Phase::Crowd, Phase::Gather],
            Phase::Teardown => &[Phase::Populate],
            Phase::Drain | Phase::Clockwork | Phase::Chaos => &PHASES,
        };
        self.phase = if self.random.percent(70) {
            self.random.one_of(usual)
        } else {
            self.random.one_of(&PHASES)
        };
        self.phase_left = self.random.between(10, self.longest_phase);
        self.draw_wishes();
    }

    fn draw_wishes(&mut self) {
        if self.random.one_in(2) {
            self.wished_tasks = self
                .random
                .one_of(&[0, 1, 2, 2, 3, 4, 6, 8, 12, 20, 30, 45, 63, 63, 63]);
        }
        self.wished_mailboxes = self.random.one_of(&[1, 2, 4, 6, 8, 12, 20, 32]);
        let fills = matches!(self.phase, Phase::Fill | Phase::Crowd) || self.random.one_in(4);
        self.wished_messages = if fills {
            300
        } else {
            self.random.one_of(&[0, 1, 2, 5, 10, 20, 50])
        };
    }

    /// The move chosen, or another one where it would not lead far.
    fn instead_of(&mut self, chosen: Move) -> Move {
        let spent = self.numbers_are_spent();
        let enough_tasks = self.kernel().tasks().len() > self.wished_tasks;
        let enough_mailboxes = self.kernel().mailboxes().len() >= self.wished_mailboxes;
        match chosen {
            Move::CreateTask if enough_tasks && self.random.percent(70) => Move::Tick,
            Move::CreateMailbox if enough_mailboxes && self.random.percent(70) => Move::SendNoWait,
            // No other message will come, so those that are queued should stay for a while.
            Move::ReceiveWait | Move::ReceiveNoWait if spent && self.random.percent(85) => {
                self.random.one_of(&[Move::SendWait, Move::SendNoWait])
            }
            _ => chosen,
        }
    }

    fn call_of(&mut self, chosen: Move) -> Call {
        match self.instead_of(chosen) {
            Move::CreateTask => self.create_task(),
            Move::CreateMailbox => self.create_mailbox(),
            Move::Terminate => Call::Terminate,
            Move::RemoveMailbox => self.remove_mailbox(),
            Move::SendWait => self.send(Mode::Wait),
            Move::SendNoWait => self.send(Mode::NoWait),
            Move::ReceiveWait => self.receive(Mode::Wait),
            Move::ReceiveNoWait => self.receive(Mode::NoWait),
            Move::Wait => Call::Wait {
                n: self.time_to_wait(),
            },
            Move::SetDeadline => Call::SetDeadline {
                n: self.some_deadline(),
            },
            Move::SetTicks => Call::SetTicks {
                n: self.some_tick(),
            },
            Move::Look => self
                .random
                .one_of(&[&Call::Ticks, &Call::Deadline, &Call::Running])
                .clone(),
            Move::Tick => Call::Tick,
            Move::Collect => self.collect(None),
            Move::Scene => self.scene(),
            Move::Clash => self.clash(),
        }
    }
}

/// Checks of the maker alone; what its scripts meet is tallied in `tally`.
#[cfg(test)]
mod tests {
    use super::*;
    use crate::script::replay;

    fn script(seed: u64, lines: u64) -> String {
        Maker::new(seed, lines, kind_of_seed(seed))
            .map(|line| line + "\n")
            .collect()
    }

    #[test]
    fn the_same_seed_gives_the_same_script() {
        assert_eq!(script(5, 3000), script(5, 3000));
        assert_ne!(script(5, 3000), script(9, 3000));
    }

    #[test]
    fn scripts_have_so_many_lines_and_are_valid() {
        for seed in 0..200 {
            let lines = seed * 3;
            let script = script(seed, lines);
            assert_eq!(script.lines().count() as u64, lines);
            replay(script.as_bytes(), std::io::sink()).unwrap();
        }
    }

    #[test]
    fn four_seeds_have_the_four_kinds() {
        let kinds: Vec<Kind> = (0..4).map(kind_of_seed).collect();
        assert!((0..4).all(|one| (0..one).all(|other| kinds[one] != kinds[other])));
    }

    #[test]
    fn message_numbers_of_a_long_script_are_spent_near_its_end() {
        let mut maker = Maker::new(6, 20_000, kind_of_seed(6));
        maker.by_ref().take(17_000).for_each(drop);
        assert!(maker.kernel().next_message().is_some());
        maker.by_ref().for_each(drop);
        assert_eq!(maker.stage.kernel().map(Kernel::next_message), Some(None));
    }

    #[test]
    fn some_scripts_end_with_close() {
        let closing = (0..100)
            .filter(|&seed| script(seed, 50).ends_with("close\n"))
            .count();
        assert!((3..30).contains(&closing));
    }
}
