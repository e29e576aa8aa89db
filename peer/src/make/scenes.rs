//! Scenes: several calls that lead to an edge. Each plans its calls; what is planned may be refused after
//! all, as the answers and the running tasks are not foreseen.

use super::arguments::send_call;
use super::phases::Phase;
use super::Maker;
use crate::kernel::{Mailbox, Mode, IDLE, TOP};
use crate::script::Call;
use crate::store::StoreKind;

impl Maker {
    pub(super) fn scene(&mut self) -> Call {
        let weights = match self.phase {
            Phase::Deliver => [1, 3, 1, 1, 1, 12, 1, 1, 1],
            Phase::Fill => [12, 1, 1, 1, 3, 1, 1, 1, 1],
            Phase::Clockwork => [1, 1, 6, 1, 1, 1, 5, 5, 1],
            Phase::Crowd => [1, 1, 1, 1, 1, 1, 1, 1, 8],
            _ => [3, 3, 3, 3, 3, 3, 3, 3, 2],
        };
        match self.random.weighted(&weights) {
            _ if self.few_numbers(16) => self.plan_full_mailbox(),
            0 => self.plan_last_units(),
            1 => self.plan_new_mailbox_after_delivery(),
            2 => self.plan_edge_of_time(),
            3 => self.plan_new_task_of_same_number(),
            4 => self.plan_displacing(),
            5 => self.plan_deliveries(),
            6 => self.plan_late_waiting(),
            7 => self.plan_deadline_and_wake_tick(),
            _ => self.plan_crowd(),
        }
        self.plan.pop_front().unwrap_or(Call::Tick)
    }

    /// A mailbox number to create: one not in use, or else one whose mailbox can be removed first.
    fn plan_room_for_mailbox(&mut self) -> Option<u8> {
        if let Some(number) = self.unused_mailbox() {
            return Some(number);
        }
        let number = self.mailbox_where(Mailbox::is_empty)?;
        self.plan.push_back(Call::RemoveMailbox { number });
        Some(number)
    }

    /// A new mailbox and sends to it, all of which the mailbox has room for.
    fn plan_mailbox_with_messages(&mut self, capacity: u8, size: u8, mode: Mode, sends: u32) {
        let Some(number) = self.plan_room_for_mailbox() else {
            return;
        };
        self.plan.push_back(Call::CreateMailbox {
            number,
            capacity,
            size,
        });
        for _ in 0..sends {
            let bytes = self.some_bytes(u32::from(size));
            self.plan.push_back(send_call(mode, number, bytes));
        }
    }

    /// A mailbox with room for one message, which it gets.
    pub(super) fn plan_full_mailbox(&mut self) {
        let size = self.random.between(1, 16) as u8;
        let waits = self.kernel().running() != IDLE && self.random.percent(60);
        if waits {
            self.plan.push_back(Call::SetDeadline { n: TOP });
        }
        let mode = if waits { Mode::Wait } else { Mode::NoWait };
        self.plan_mailbox_with_messages(1, size, mode, 1);
    }

    /// Where few units are free: a message that costs all of them, or one more. Where many are: messages
    /// that leave few.
    pub(super) fn plan_last_units(&mut self) {
        let free = self.kernel().store().free();
        let mode = if self.random.percent(80) {
            Mode::NoWait
        } else {
            Mode::Wait
        };
        let capacity = self.random.one_of(&[1, 2, 16]);
        match self.kernel().store().kind() {
            StoreKind::Slot => {
                let sends = free.min(15) + 1;
                let size = self.random.one_of(&[1, 2, 128]);
                self.plan_mailbox_with_messages(16, size, Mode::NoWait, sends);
            }
            StoreKind::Packed if free <= 16 => {
                let size = self.random.one_of(&[1, 2, 128]);
                self.plan_mailbox_with_messages(capacity, size, mode, 1);
            }
            StoreKind::Packed if free <= 16 + 128 => {
                let exact = (free - 16) as u8;
                let size = if self.random.percent(60) {
                    exact
                } else {
                    (exact + 1).min(128)
                };
                self.plan_mailbox_with_messages(capacity, size, mode, 1);
            }
            StoreKind::Packed => {
                let size = self.random.one_of(&[1, 48, 128, 128]);
                let sends = (free / (u32::from(size) + 16)).min(16);
                self.plan_mailbox_with_messages(16, size, Mode::NoWait, sends);
            }
        }
    }

    /// A mailbox is removed, and made anew with another shape, while a message that was handed over from
    /// it may not be collected yet.
    fn plan_new_mailbox_after_delivery(&mut self) {
        let empty = |maker: &Maker, number: &u8| {
            maker
                .kernel()
                .mailboxes()
                .get(number)
                .is_some_and(Mailbox::is_empty)
        };
        let delivered = self.last_delivery.filter(|number| empty(self, number));
        let Some(number) = delivered.or_else(|| self.mailbox_where(Mailbox::is_empty)) else {
            return;
        };
        self.plan.push_back(Call::RemoveMailbox { number });
        if self.random.percent(70) {
            let (capacity, size) = self.good_shape();
            self.plan.push_back(Call::CreateMailbox {
                number,
                capacity,
                size,
            });
            let bytes = self.some_bytes(u32::from(size));
            self.plan.push_back(send_call(Mode::NoWait, number, bytes));
        }
    }

    /// The counter is set to just before something is reached.
    fn plan_edge_of_time(&mut self) {
        let event = self.some_event().unwrap_or(TOP);
        let before = event.saturating_sub(self.random.between(0, 2));
        let n = if self.numbers_are_spent() {
            self.some_tick()
        } else {
            before
        };
        self.plan.push_back(Call::SetTicks { n });
        self.plan.extend([Call::Tick, Call::Running, Call::Tick]);
    }

    /// The running task ends, and a new task takes its number.
    fn plan_new_task_of_same_number(&mut self) {
        let number = self.kernel().running();
        let (deadline, level) = (self.some_deadline(), self.some_level());
        self.plan.extend([
            Call::Terminate,
            Call::CreateTask {
                number,
                deadline,
                level,
            },
            Call::Running,
        ]);
    }

    /// A mailbox with room for few messages gets more of them, and one of the other mode.
    fn plan_displacing(&mut self) {
        let (capacity, size) = (
            self.random.one_of(&[1, 1, 2, 3]),
            self.random.between(1, 64) as u8,
        );
        let sends = u32::from(capacity) + self.random.between(1, 3);
        self.plan_mailbox_with_messages(capacity, size, Mode::NoWait, sends);
        if let Some(&Call::SendNoWait { number, .. }) = self.plan.back() {
            let bytes = self.some_bytes(u32::from(size));
            self.plan.push_back(send_call(Mode::Wait, number, bytes));
            self.plan.push_back(Call::ReceiveNoWait {
                number,
                length: u32::from(size),
            });
        }
    }

    /// An urgent task gives messages to waiting receivers; they cannot collect while it runs.
    fn plan_deliveries(&mut self) {
        if self.random.one_in(2) || self.kernel().running() == IDLE {
            if let Some(number) = self.unused_task() {
                self.plan.push_back(Call::CreateTask {
                    number,
                    deadline: 0,
                    level: 0,
                });
            }
        } else {
            self.plan.push_back(Call::SetDeadline { n: 0 });
        }
        for _ in 0..self.random.between(1, 3) {
            let Some(number) = self.fullest_where(|mailbox| !mailbox.receivers.is_empty()) else {
                return;
            };
            let mailbox = &self.kernel().mailboxes()[&number];
            let (size, receivers) = (mailbox.size as u32, mailbox.receivers.len());
            let mode = if self.random.percent(70) {
                Mode::NoWait
            } else {
                Mode::Wait
            };
            for _ in 0..receivers {
                let bytes = self.some_bytes(size);
                self.plan.push_back(send_call(mode, number, bytes));
            }
        }
    }

    /// A task waits or sleeps whose deadline is reached already, or will be at the next tick.
    fn plan_late_waiting(&mut self) {
        let now = self.kernel().ticks();
        let n = self.beside(2, 1, |_| now);
        self.plan.push_back(Call::SetDeadline { n });
        let call = match self.random.below(3) {
            0 => Call::Wait {
                n: self.time_to_wait(),
            },
            1 => self.receive(Mode::Wait),
            _ => self.send(Mode::Wait),
        };
        self.plan.extend([call, Call::Tick]);
    }

    /// A task sleeps with its deadline at its wake tick, or one beside it.
    fn plan_deadline_and_wake_tick(&mut self) {
        let now = self.kernel().ticks();
        let n = self.random.between(1, 4);
        let deadline = self.beside(1, 1, |_| now.saturating_add(n));
        self.plan
            .extend([Call::SetDeadline { n: deadline }, Call::Wait { n }]);
        let ticks = if self.random.one_in(2) { n } else { 1 };
        self.plan.extend((0..ticks).map(|_| Call::Tick));
    }

    /// More tasks send to a new mailbox, and wait, than it has room for.
    fn plan_crowd(&mut self) {
        let (capacity, size) = (
            self.random.one_of(&[1, 2, 4, 16]),
            self.random.one_of(&[1, 2, 32, 128]),
        );
        let sends = u32::from(capacity) + self.random.between(0, 2);
        self.plan_mailbox_with_messages(capacity, size, Mode::Wait, sends);
    }
}
