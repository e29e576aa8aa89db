//! What the calls are about: numbers, shapes, bytes, buffers, deadlines and ticks, chosen by the state.

use super::phases::Phase;
use super::Maker;
use crate::kernel::{Due, Mailbox, Mode, State, LAST_LEVEL, LAST_MAILBOX, LAST_TASK, TOP};
use crate::script::{Call, LONGEST_BUFFER};

/// Calls about tasks and mailboxes.
impl Maker {
    pub(super) fn create_task(&mut self) -> Call {
        let number = match self.random.weighted(&[80, 6, 5, 3]) {
            0 => self.unused_task().unwrap_or(LAST_TASK),
            1 => self.random.one_of(&self.living_tasks()),
            2 => self.random.one_of(&[0, 64, 65, 128, 255]),
            _ => self.random.one_of(&[1, 31, 32, 62, 63]),
        };
        Call::CreateTask {
            number,
            deadline: self.some_deadline(),
            level: self.some_level(),
        }
    }

    pub(super) fn living_tasks(&self) -> Vec<u8> {
        self.kernel().tasks().keys().copied().collect()
    }

    pub(super) fn unused_task(&mut self) -> Option<u8> {
        let tasks = self.kernel().tasks();
        let unused: Vec<u8> = (1..=LAST_TASK)
            .filter(|number| !tasks.contains_key(number))
            .collect();
        self.random.pick(&unused)
    }

    pub(super) fn some_level(&mut self) -> u8 {
        match self.random.weighted(&[4, 6, 2, 1]) {
            0 => self.urgency_of_some_task().1,
            1 => self.random.one_of(&[0, 1, 2, 15, 30, 31]),
            2 => self.random.between(0, u32::from(LAST_LEVEL)) as u8,
            _ => self.random.one_of(&[32, 33, 64, 255]),
        }
    }

    /// Deadline and level of some task.
    pub(super) fn urgency_of_some_task(&mut self) -> (u32, u8) {
        let number = self.random.one_of(&self.living_tasks());
        let task = &self.kernel().tasks()[&number];
        (task.deadline, task.level)
    }

    pub(super) fn create_mailbox(&mut self) -> Call {
        let number = match self.random.weighted(&[80, 8, 6]) {
            0 => self.unused_mailbox().unwrap_or(LAST_MAILBOX),
            1 => self.any_mailbox(),
            _ => self.bad_mailbox(),
        };
        let (capacity, size) = self.some_shape();
        Call::CreateMailbox {
            number,
            capacity,
            size,
        }
    }

    pub(super) fn some_shape(&mut self) -> (u8, u8) {
        if self.phase == Phase::Fill && self.random.percent(70) {
            return (16, self.random.one_of(&[1, 1, 2, 48, 112, 127, 128, 128]));
        }
        let capacity = match self.random.weighted(&[8, 4, 2, 4, 1]) {
            0 => 16,
            1 => 1,
            2 => 2,
            3 => self.random.between(1, 16) as u8,
            _ => self.random.one_of(&[0, 17, 18, 255]),
        };
        let size = match self.random.weighted(&[3, 3, 3, 6, 1]) {
            0 => 1,
            1 => 128,
            2 => self.random.one_of(&[2, 4, 16, 32, 64, 127]),
            3 => self.random.between(1, 128) as u8,
            _ => self.random.one_of(&[0, 129, 130, 255]),
        };
        (capacity, size)
    }

    pub(super) fn good_shape(&mut self) -> (u8, u8) {
        (
            self.random.one_of(&[1, 1, 2, 3, 16]),
            self.random.between(1, 128) as u8,
        )
    }

    pub(super) fn remove_mailbox(&mut self) -> Call {
        let found = match self.random.weighted(&[6, 3, 1, 1]) {
            0 => self.mailbox_where(Mailbox::is_empty),
            1 => self.mailbox_where(|mailbox| !mailbox.is_empty()),
            2 => self.unused_mailbox(),
            _ => Some(self.bad_mailbox()),
        };
        Call::RemoveMailbox {
            number: found.unwrap_or_else(|| self.any_mailbox()),
        }
    }

    pub(super) fn mailbox_where(&mut self, wanted: impl Fn(&Mailbox) -> bool) -> Option<u8> {
        let all = self.kernel().mailboxes().iter();
        let found: Vec<u8> = all
            .filter(|(_, mailbox)| wanted(mailbox))
            .map(|(&number, _)| number)
            .collect();
        self.random.pick(&found)
    }

    /// Of the mailboxes that are wanted, mostly the one with the most entries.
    pub(super) fn fullest_where(&mut self, wanted: impl Fn(&Mailbox) -> bool) -> Option<u8> {
        if self.random.percent(25) {
            return self.mailbox_where(wanted);
        }
        let entries = |mailbox: &Mailbox| mailbox.queue.len() + mailbox.receivers.len();
        let all = self.kernel().mailboxes().iter();
        let found = all
            .filter(|(_, mailbox)| wanted(mailbox))
            .max_by_key(|(_, mailbox)| entries(mailbox));
        found.map(|(&number, _)| number)
    }

    pub(super) fn unused_mailbox(&mut self) -> Option<u8> {
        let mailboxes = self.kernel().mailboxes();
        let unused: Vec<u8> = (0..=LAST_MAILBOX)
            .filter(|number| !mailboxes.contains_key(number))
            .collect();
        self.random.pick(&unused)
    }

    pub(super) fn bad_mailbox(&mut self) -> u8 {
        self.random.one_of(&[32, 33, 63, 64, 128, 255])
    }

    pub(super) fn any_mailbox(&mut self) -> u8 {
        self.mailbox_where(|_| true)
            .unwrap_or_else(|| self.random.between(0, u32::from(LAST_MAILBOX)) as u8)
    }
}

/// Sends, receives and collects.
impl Maker {
    pub(super) fn send(&mut self, mode: Mode) -> Call {
        let number = self.send_target(mode);
        let bytes = self.bytes_for(number);
        send_call(mode, number, bytes)
    }

    pub(super) fn send_target(&mut self, mode: Mode) -> u8 {
        let spent = self.numbers_are_spent();
        let weights = match self.phase {
            // receivers wait, room, full, of the other mode, not in use, bad number, any
            _ if spent => [8, 4, 16, 2, 1, 1, 3],
            Phase::Deliver => [30, 4, 2, 2, 1, 1, 2],
            Phase::Fill | Phase::Crowd => [2, 30, 5, 3, 1, 1, 2],
            _ => [8, 8, 8, 4, 2, 1, 5],
        };
        let found = match self.random.weighted(&weights) {
            0 => self.mailbox_where(|mailbox| !mailbox.receivers.is_empty()),
            1 => self.fullest_where(|mailbox| has_room(mailbox, mode)),
            2 => self
                .mailbox_where(|mailbox| mailbox.mode() == Some(mode) && mailbox.queue_is_full()),
            3 => self.mailbox_where(|mailbox| mailbox.mode().is_some_and(|queued| queued != mode)),
            4 => self.unused_mailbox(),
            5 => Some(self.bad_mailbox()),
            _ => None,
        };
        found.unwrap_or_else(|| self.any_mailbox())
    }

    /// Bytes to send to this mailbox: mostly as many as it takes.
    pub(super) fn bytes_for(&mut self, number: u8) -> Vec<u8> {
        let size = self.size_of(number);
        let length = match self.random.weighted(&[60, 2, 2, 2, 1, 1]) {
            0 => size,
            1 => size + 1,
            2 => size - 1,
            3 => 0,
            4 => self.random.below(200),
            _ => self.random.one_of(&[1, 128, 129, 255, 256, 1024]),
        };
        self.some_bytes(length)
    }

    pub(super) fn some_bytes(&mut self, length: u32) -> Vec<u8> {
        match self.random.weighted(&[20, 1, 1, 1]) {
            0 => (0..length).map(|_| self.random.word() as u8).collect(),
            // Like the bytes of a lent buffer.
            1 => vec![0xaa; length as usize],
            2 => vec![0; length as usize],
            _ => vec![0xff; length as usize],
        }
    }

    /// The message size of a mailbox, or some size where none is in use.
    pub(super) fn size_of(&self, number: u8) -> u32 {
        self.kernel()
            .mailboxes()
            .get(&number)
            .map_or(4, |mailbox| mailbox.size as u32)
    }

    pub(super) fn receive(&mut self, mode: Mode) -> Call {
        let number = self.receive_target();
        let size = self.size_of(number);
        let length = self.buffer_length(size);
        match mode {
            Mode::Wait => Call::ReceiveWait { number, length },
            Mode::NoWait => Call::ReceiveNoWait { number, length },
        }
    }

    pub(super) fn receive_target(&mut self) -> u8 {
        let weights = match self.phase {
            // messages queued, room for receivers, full of receivers, empty, not in use, bad number, any
            Phase::Gather => [1, 30, 5, 2, 1, 1, 1],
            Phase::Drain => [30, 2, 1, 3, 1, 1, 1],
            _ => [9, 5, 4, 3, 1, 1, 4],
        };
        let found = match self.random.weighted(&weights) {
            0 => self.mailbox_where(|mailbox| !mailbox.queue.is_empty()),
            1 => self
                .fullest_where(|mailbox| mailbox.queue.is_empty() && !mailbox.receivers_are_full()),
            2 => self.mailbox_where(Mailbox::receivers_are_full),
            3 => self.mailbox_where(Mailbox::is_empty),
            4 => self.unused_mailbox(),
            5 => Some(self.bad_mailbox()),
            _ => None,
        };
        found.unwrap_or_else(|| self.any_mailbox())
    }

    /// The length of a buffer for so many bytes: mostly enough.
    pub(super) fn buffer_length(&mut self, size: u32) -> u32 {
        match self.random.weighted(&[50, 10, 6, 8, 4, 3, 1, 2]) {
            0 => size,
            1 => size + 1,
            2 => size + self.random.below(16),
            3 => size.saturating_sub(1),
            4 => 0,
            5 => self.random.below(size + 1),
            6 => LONGEST_BUFFER - self.random.below(2),
            _ => self.random.below(300),
        }
    }

    pub(super) fn empty_or_remove_mailbox(&mut self) -> Call {
        match self.mailbox_where(Mailbox::is_empty) {
            Some(number) => Call::RemoveMailbox { number },
            None => self.receive_some_message(),
        }
    }

    pub(super) fn receive_some_message(&mut self) -> Call {
        let found = self.mailbox_where(|mailbox| !mailbox.queue.is_empty());
        let number = found.unwrap_or_else(|| self.any_mailbox());
        Call::ReceiveNoWait {
            number,
            length: self.size_of(number),
        }
    }

    pub(super) fn collect(&mut self, due: Option<Due>) -> Call {
        let size = match due {
            Some(Due::Delivery { message }) => self.kernel().store().length(message).unwrap_or(0),
            _ => 0,
        };
        Call::Collect {
            length: self.buffer_length(size as u32),
        }
    }
}

pub(super) fn send_call(mode: Mode, number: u8, bytes: Vec<u8>) -> Call {
    match mode {
        Mode::Wait => Call::SendWait { number, bytes },
        Mode::NoWait => Call::SendNoWait { number, bytes },
    }
}

/// Whether a send of this mode would be queued, displacing none.
fn has_room(mailbox: &Mailbox, mode: Mode) -> bool {
    let same_mode = mailbox.mode().is_none_or(|queued| queued == mode);
    same_mode && mailbox.receivers.is_empty() && !mailbox.queue_is_full()
}

/// Calls that more than one row is likely to refuse.
impl Maker {
    pub(super) fn clash(&mut self) -> Call {
        match self.random.weighted(&[2, 2, 5, 4, 4, 2, 1]) {
            0 => self.clashing_create_task(),
            1 => self.clashing_create_mailbox(),
            2 => self.clashing_send(Mode::Wait),
            3 => self.clashing_send(Mode::NoWait),
            4 => self.clashing_receive(Mode::Wait),
            5 => self.clashing_receive(Mode::NoWait),
            _ => Call::Wait { n: TOP },
        }
    }

    fn clashing_create_task(&mut self) -> Call {
        let taken = self.random.one_of(&self.living_tasks());
        let number = self.random.one_of(&[taken, 0, 64, 255]);
        let level = self.random.one_of(&[31, 32, 255]);
        Call::CreateTask {
            number,
            deadline: self.some_deadline(),
            level,
        }
    }

    fn clashing_create_mailbox(&mut self) -> Call {
        let taken = self.any_mailbox();
        let number = self.random.one_of(&[taken, taken, 32, 255]);
        let (capacity, size) =
            self.random
                .one_of(&[(1, 1), (0, 1), (17, 128), (16, 0), (16, 129), (0, 0)]);
        Call::CreateMailbox {
            number,
            capacity,
            size,
        }
    }

    /// A send to a mailbox that is full, holds the other mode or is none, at times with bytes of another size.
    fn clashing_send(&mut self, mode: Mode) -> Call {
        let found = match self.random.below(5) {
            0 => Some(self.bad_mailbox()),
            1 => self.unused_mailbox(),
            2 => self.mailbox_where(|mailbox| mailbox.mode().is_some_and(|queued| queued != mode)),
            _ => self
                .mailbox_where(|mailbox| mailbox.queue_is_full() && mailbox.mode() == Some(mode)),
        };
        let number = found.unwrap_or_else(|| self.any_mailbox());
        let size = self.size_of(number);
        let length = if self.random.percent(30) {
            self.random.one_of(&[0, size - 1, size + 1])
        } else {
            size
        };
        let bytes = self.some_bytes(length);
        send_call(mode, number, bytes)
    }

    /// A receive where no message is queued or receivers are at the capacity, at times with a short buffer.
    fn clashing_receive(&mut self, mode: Mode) -> Call {
        let found = match self.random.below(5) {
            0 => self.mailbox_where(|mailbox| mailbox.queue.is_empty()),
            1 => Some(self.bad_mailbox()),
            2 => self.unused_mailbox(),
            _ => self.mailbox_where(Mailbox::receivers_are_full),
        };
        let number = found.unwrap_or_else(|| self.any_mailbox());
        let size = self.size_of(number);
        let length = self.random.one_of(&[0, size - 1, size]);
        match mode {
            Mode::Wait => Call::ReceiveWait { number, length },
            Mode::NoWait => Call::ReceiveNoWait { number, length },
        }
    }
}

/// Deadlines, ticks and waits.
impl Maker {
    pub(super) fn some_deadline(&mut self) -> u32 {
        let now = self.kernel().ticks();
        match self.random.weighted(&[4, 2, 2, 6, 2, 9, 5, 1, 1, 2, 1]) {
            0 => now.saturating_add(self.random.between(1, 3)),
            1 => now,
            2 => now.saturating_sub(self.random.between(1, 3)),
            3 => self.urgency_of_some_task().0,
            4 => self.beside(1, 1, |maker| maker.urgency_of_some_task().0),
            5 => now.saturating_add(self.random.between(4, 60)),
            6 => TOP,
            7 => TOP - 1,
            8 => 0,
            9 => self.random.below(64),
            _ => self.random.word(),
        }
    }

    /// A number, or one up to so much below or above it.
    pub(super) fn beside(
        &mut self,
        below: u32,
        above: u32,
        number: impl FnOnce(&mut Maker) -> u32,
    ) -> u32 {
        let number = number(self);
        let shifted = u64::from(number) + u64::from(self.random.between(0, below + above));
        shifted.saturating_sub(u64::from(below)).min(u64::from(TOP)) as u32
    }

    /// A value for the counter: often such that the next tick, or the one after it, reaches something.
    pub(super) fn some_tick(&mut self) -> u32 {
        let now = self.kernel().ticks();
        // At the top all waiting ends; where no message can be sent any more, that should be seldom.
        if self.numbers_are_spent() && self.random.percent(95) {
            return self.beside(5, 20, |maker| maker.random.below(100));
        }
        match self.random.weighted(&[10, 4, 2, 2, 4, 1]) {
            0 => match self.some_event() {
                Some(event) => self.beside(2, 1, |_| event),
                None => now,
            },
            1 => self.beside(5, 20, |_| now),
            2 => self.random.one_of(&[0, 0, 1]),
            3 => TOP - self.random.below(4),
            4 => self.random.below(100),
            _ => self.random.word(),
        }
    }

    /// The deadline or the wake tick of a task that waits or sleeps.
    pub(super) fn some_event(&mut self) -> Option<u32> {
        let mut events = Vec::new();
        for task in self.kernel().tasks().values() {
            match task.state {
                State::Ready { .. } => {}
                State::Receiving { .. } | State::Sending { .. } => events.push(task.deadline),
                State::Asleep { wake } => events.extend([wake, task.deadline]),
            }
        }
        self.random.pick(&events)
    }

    pub(super) fn time_to_wait(&mut self) -> u32 {
        let now = self.kernel().ticks();
        let to_deadline = self.kernel().deadline().saturating_sub(now);
        match self.random.weighted(&[4, 4, 8, 6, 3, 2, 3, 2, 2, 1]) {
            0 => 0,
            1 => 1,
            2 => self.random.between(2, 12),
            3 => self.beside(1, 1, |_| to_deadline),
            4 => TOP,
            5 => TOP - now,
            6 => (TOP - now).saturating_add(1),
            7 => (TOP - now).saturating_sub(1),
            8 => self.some_event().unwrap_or(now).saturating_sub(now),
            _ => self.random.word(),
        }
    }
}
