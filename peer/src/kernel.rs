//! The kernel: tasks, mailboxes, the ready list, the counter, and the calls on them.
//!
//! Every call has two parts, with an empty line between them: its rows of the table of refusals, in
//! the order in which they are tried, and its effect. No row changes anything.

use crate::answer::{Answer, Counts, Fate, Refusal, Status};
use crate::store::Store;
use std::collections::{BTreeMap, VecDeque};

/// The largest number of 32 bits.
pub const TOP: u32 = u32::MAX;
pub const IDLE: u8 = 0;
pub const LAST_TASK: u8 = 63;
pub const LAST_MAILBOX: u8 = 31;
pub const LAST_LEVEL: u8 = 31;
pub const MOST_ENTRIES: u8 = 16;
pub const LARGEST_SIZE: u8 = 128;

/// By what a task goes before another one.
#[derive(Clone, Copy, Debug, PartialEq, Eq)]
pub enum Order {
    Deadline,
    Level,
}

impl Order {
    pub fn goes_before(self, a: &Task, b: &Task) -> bool {
        match self {
            Order::Deadline => a.deadline < b.deadline,
            Order::Level => a.level < b.level,
        }
    }
}

#[derive(Clone, Debug)]
pub struct Task {
    pub deadline: u32,
    pub level: u8,
    pub state: State,
}

/// What a task does. An answer can be due to a ready task alone, so it is kept there.
#[derive(Clone, Copy, Debug)]
pub enum State {
    Ready { due: Option<Due> },
    Receiving { mailbox: u8 },
    Sending { mailbox: u8, message: u32 },
    Asleep { wake: u32 },
}

/// An answer that waits for its task's `collect`.
#[derive(Clone, Copy, Debug)]
pub enum Due {
    /// The answer as it stands; it brings no bytes.
    Plain(Answer),
    /// A message, whose bytes are in the store until they are collected.
    Delivery { message: u32 },
}

#[derive(Clone, Debug)]
pub struct Mailbox {
    pub capacity: usize,
    pub size: usize,
    /// The messages, oldest first.
    pub queue: VecDeque<Queued>,
    /// The tasks that wait for a message, oldest first.
    pub receivers: VecDeque<u8>,
}

#[derive(Clone, Copy, Debug)]
pub struct Queued {
    pub message: u32,
    /// The task that waits with the message, if `send_wait` sent it.
    pub sender: Option<u8>,
}

/// How the messages of a queue were sent: all by `send_wait`, or all by `send_no_wait`.
#[derive(Clone, Copy, Debug, PartialEq, Eq)]
pub enum Mode {
    Wait,
    NoWait,
}

impl Mailbox {
    /// The mode of what is queued; none if nothing is.
    pub fn mode(&self) -> Option<Mode> {
        self.queue.front().map(|oldest| match oldest.sender {
            Some(_) => Mode::Wait,
            None => Mode::NoWait,
        })
    }

    pub fn queue_is_full(&self) -> bool {
        self.queue.len() >= self.capacity
    }

    pub fn receivers_are_full(&self) -> bool {
        self.receivers.len() >= self.capacity
    }

    pub fn is_empty(&self) -> bool {
        self.queue.is_empty() && self.receivers.is_empty()
    }
}

/// The kernel before it runs.
#[derive(Clone, Debug)]
pub struct StartUp {
    kernel: Kernel,
}

pub fn init_kernel(mut store: Store, order: Order, first_message: u32) -> StartUp {
    store.clear();
    let state = State::Ready { due: None };
    let idle = Task {
        deadline: TOP,
        level: LAST_LEVEL,
        state,
    };
    StartUp {
        kernel: Kernel {
            store,
            order,
            counter: 0,
            next_message: Some(first_message),
            tasks: BTreeMap::from([(IDLE, idle)]),
            ready: vec![IDLE],
            mailboxes: BTreeMap::new(),
            counts: Counts::default(),
        },
    }
}

impl StartUp {
    pub fn create_task(&mut self, number: u8, deadline: u32, level: u8) -> Result<Answer, Refusal> {
        self.kernel.create_task(number, deadline, level)
    }

    pub fn create_mailbox(
        &mut self,
        number: u8,
        capacity: u8,
        size: u8,
    ) -> Result<Answer, Refusal> {
        self.kernel.create_mailbox(number, capacity, size)
    }

    pub fn run(mut self) -> Kernel {
        self.kernel.counter = 0;
        self.kernel
    }

    /// The kernel that is being set up, to look at.
    pub fn view(&self) -> &Kernel {
        &self.kernel
    }
}

/// The running kernel.
#[derive(Clone, Debug)]
pub struct Kernel {
    store: Store,
    order: Order,
    counter: u32,
    /// The number of the next message; none once TOP has been used.
    next_message: Option<u32>,
    tasks: BTreeMap<u8, Task>,
    /// The ready tasks: the running task first, task 0 last.
    ready: Vec<u8>,
    mailboxes: BTreeMap<u8, Mailbox>,
    counts: Counts,
}

/// The calls on tasks and mailboxes.
impl Kernel {
    pub fn create_task(&mut self, number: u8, deadline: u32, level: u8) -> Result<Answer, Refusal> {
        self.row_1_answer_due()?;
        row_4_bad_task_number(number)?;
        row_5_bad_level(number, level)?;
        row_7_taken(&self.tasks, number)?;

        let state = State::Ready { due: None };
        self.tasks.insert(
            number,
            Task {
                deadline,
                level,
                state,
            },
        );
        self.enter_ready_list(number);
        Ok(Answer::of(Status::Ok))
    }

    pub fn terminate(&mut self) -> Result<Answer, Refusal> {
        self.row_1_answer_due()?;
        self.row_3_idle_task()?;

        let task = self.ready.remove(0);
        self.tasks.remove(&task);
        Ok(Answer::of(Status::Ok))
    }

    pub fn create_mailbox(
        &mut self,
        number: u8,
        capacity: u8,
        size: u8,
    ) -> Result<Answer, Refusal> {
        self.row_1_answer_due()?;
        row_4_bad_mailbox_number(number)?;
        row_6_bad_shape(number, capacity, size)?;
        row_7_taken(&self.mailboxes, number)?;

        let mailbox = Mailbox {
            capacity: usize::from(capacity),
            size: usize::from(size),
            queue: VecDeque::new(),
            receivers: VecDeque::new(),
        };
        self.mailboxes.insert(number, mailbox);
        Ok(Answer::of(Status::Ok))
    }

    pub fn remove_mailbox(&mut self, number: u8) -> Result<Answer, Refusal> {
        self.row_1_answer_due()?;
        row_4_bad_mailbox_number(number)?;
        self.row_8_no_mailbox(number)?;
        self.row_9_not_empty(number)?;

        self.mailboxes.remove(&number);
        Ok(Answer::of(Status::Ok))
    }
}

/// The sends.
impl Kernel {
    pub fn send_wait(&mut self, number: u8, bytes: &[u8]) -> Result<Answer, Refusal> {
        self.row_1_answer_due()?;
        self.row_3_idle_task()?;
        row_4_bad_mailbox_number(number)?;
        self.row_8_no_mailbox(number)?;
        self.row_10_wrong_size(number, bytes)?;
        self.row_12_mixed(number, Mode::Wait)?;
        self.row_14_full_of_messages(number)?;
        let message = self.row_16_numbers_spent()?;
        self.row_20_store_full(message, bytes, None)?;

        self.accept(message, bytes);
        if self.give_to_receiver(number, message) {
            return Ok(Answer::of(Status::Ok).with_message(message));
        }
        let sender = self.block(State::Sending {
            mailbox: number,
            message,
        });
        self.enqueue(
            number,
            Queued {
                message,
                sender: Some(sender),
            },
        );
        Ok(Answer::of(Status::Blocked).with_message(message))
    }

    pub fn send_no_wait(&mut self, number: u8, bytes: &[u8]) -> Result<Answer, Refusal> {
        self.row_1_answer_due()?;
        row_4_bad_mailbox_number(number)?;
        self.row_8_no_mailbox(number)?;
        self.row_10_wrong_size(number, bytes)?;
        self.row_12_mixed(number, Mode::NoWait)?;
        let message = self.row_16_numbers_spent()?;
        let displaced = self.to_be_displaced(number);
        self.row_20_store_full(message, bytes, displaced)?;

        if displaced.is_some() {
            self.displace_oldest(number);
        }
        self.accept(message, bytes);
        if !self.give_to_receiver(number, message) {
            self.enqueue(
                number,
                Queued {
                    message,
                    sender: None,
                },
            );
        }
        Ok(Answer {
            displaced,
            ..Answer::of(Status::Ok).with_message(message)
        })
    }

    /// The message that a `send_no_wait` to the mailbox displaces: the oldest, if there is no room.
    fn to_be_displaced(&self, number: u8) -> Option<u32> {
        let mailbox = self.mailbox(number);
        if mailbox.queue_is_full() {
            mailbox.queue.front().map(|oldest| oldest.message)
        } else {
            None
        }
    }

    fn displace_oldest(&mut self, number: u8) {
        let oldest = self
            .mailbox_mut(number)
            .queue
            .pop_front()
            .expect("a full queue has a message");
        self.store
            .discard(oldest.message)
            .expect("a queued message is held");
        self.counts.settle(Fate::Displaced);
    }

    /// Puts the bytes into the store, uses up the message number, and counts the message.
    fn accept(&mut self, message: u32, bytes: &[u8]) {
        self.store
            .put(message, bytes)
            .expect("row 20 has been tried");
        self.next_message = message.checked_add(1);
        self.counts.accept();
    }

    /// Gives the message to the oldest waiting receiver; false if none waits.
    fn give_to_receiver(&mut self, number: u8, message: u32) -> bool {
        match self.mailbox_mut(number).receivers.pop_front() {
            Some(receiver) => {
                self.make_ready(receiver, Due::Delivery { message });
                self.counts.settle(Fate::HandedOver);
                true
            }
            None => false,
        }
    }

    fn enqueue(&mut self, number: u8, queued: Queued) {
        self.mailbox_mut(number).queue.push_back(queued);
    }
}

/// The receives, and `collect`.
impl Kernel {
    pub fn receive_wait(&mut self, number: u8, buffer: &mut [u8]) -> Result<Answer, Refusal> {
        self.row_1_answer_due()?;
        self.row_3_idle_task()?;
        row_4_bad_mailbox_number(number)?;
        self.row_8_no_mailbox(number)?;
        self.row_11_short_buffer(number, buffer)?;
        self.row_14_full_of_receivers(number)?;

        if let Some(oldest) = self.dequeue(number) {
            return Ok(self.receive(oldest, buffer));
        }
        let receiver = self.block(State::Receiving { mailbox: number });
        self.mailbox_mut(number).receivers.push_back(receiver);
        Ok(Answer::of(Status::Blocked))
    }

    pub fn receive_no_wait(&mut self, number: u8, buffer: &mut [u8]) -> Result<Answer, Refusal> {
        self.row_1_answer_due()?;
        row_4_bad_mailbox_number(number)?;
        self.row_8_no_mailbox(number)?;
        self.row_11_short_buffer(number, buffer)?;
        self.row_13_empty(number)?;

        let oldest = self.dequeue(number).expect("row 13 has been tried");
        Ok(self.receive(oldest, buffer))
    }

    pub fn collect(&mut self, buffer: &mut [u8]) -> Result<Answer, Refusal> {
        let due = self.row_2_nothing_due()?;
        self.row_11_short_collect(due, buffer)?;

        let running = self.running();
        self.task_mut(running).state = State::Ready { due: None };
        Ok(match due {
            Due::Plain(answer) => answer,
            Due::Delivery { message } => self.bring(message, buffer),
        })
    }

    fn dequeue(&mut self, number: u8) -> Option<Queued> {
        self.mailbox_mut(number).queue.pop_front()
    }

    /// Hands over a message that has left its queue; a task that waits with it is readied.
    fn receive(&mut self, taken: Queued, buffer: &mut [u8]) -> Answer {
        let answer = self.bring(taken.message, buffer);
        self.counts.settle(Fate::HandedOver);
        if let Some(sender) = taken.sender {
            self.make_ready(
                sender,
                Due::Plain(Answer::of(Status::Ok).with_message(taken.message)),
            );
        }
        answer
    }

    /// Moves the bytes of a message from the store to the front of the buffer.
    fn bring(&mut self, message: u32, buffer: &mut [u8]) -> Answer {
        let length = self
            .store
            .copy(message, buffer)
            .expect("the message is held and row 11 was tried");
        self.store.discard(message).expect("the message is held");
        Answer::of(Status::Ok)
            .with_message(message)
            .with_length(length)
    }
}

/// Time.
impl Kernel {
    pub fn wait(&mut self, n: u32) -> Result<Answer, Refusal> {
        self.row_1_answer_due()?;
        self.row_3_idle_task()?;
        let wake = self.row_15_too_long(n)?;

        self.block(State::Asleep { wake });
        Ok(Answer::of(Status::Blocked))
    }

    pub fn set_deadline(&mut self, deadline: u32) -> Result<Answer, Refusal> {
        self.row_1_answer_due()?;
        self.row_3_idle_task()?;

        let running = self.ready.remove(0);
        self.task_mut(running).deadline = deadline;
        self.enter_ready_list(running);
        Ok(Answer::of(Status::Ok))
    }

    pub fn set_ticks(&mut self, n: u32) -> Result<Answer, Refusal> {
        self.row_1_answer_due()?;

        self.counter = n;
        Ok(Answer::of(Status::Ok))
    }

    pub fn ticks(&self) -> u32 {
        self.counter
    }

    /// The deadline of the running task.
    pub fn deadline(&self) -> u32 {
        self.task(self.running()).deadline
    }

    /// The number of the running task.
    pub fn running(&self) -> u8 {
        self.ready[0]
    }

    /// Answers how many tasks were readied, and which task runs now.
    pub fn tick(&mut self) -> (usize, u8) {
        self.counter = self.counter.saturating_add(1);
        let visited: Vec<u8> = self
            .tasks
            .range(IDLE + 1..)
            .map(|(&number, _)| number)
            .collect();
        let readied = visited
            .into_iter()
            .filter(|&number| self.visit(number))
            .count();
        (readied, self.running())
    }

    /// The visit of a tick to one task; true if it readies the task.
    fn visit(&mut self, number: u8) -> bool {
        let task = self.task(number);
        let deadline_reached = task.deadline <= self.counter;
        let late = Answer::of(Status::DeadlineReached);
        let answer = match task.state {
            State::Receiving { mailbox } if deadline_reached => {
                self.mailbox_mut(mailbox)
                    .receivers
                    .retain(|&receiver| receiver != number);
                late
            }
            State::Sending { mailbox, message } if deadline_reached => {
                self.withdraw(mailbox, message);
                late.with_message(message)
            }
            State::Asleep { .. } if deadline_reached => late,
            State::Asleep { wake } if wake <= self.counter => Answer::of(Status::Ok),
            _ => return false,
        };
        self.make_ready(number, Due::Plain(answer));
        true
    }

    /// Takes a message out of its queue, wherever it stands there, and out of the store.
    fn withdraw(&mut self, mailbox: u8, message: u32) {
        self.mailbox_mut(mailbox)
            .queue
            .retain(|queued| queued.message != message);
        self.store
            .discard(message)
            .expect("a queued message is held");
        self.counts.settle(Fate::Withdrawn);
    }

    pub fn close(self) -> Counts {
        self.counts
    }
}

/// The ready list.
impl Kernel {
    /// Enters a task in front of the first one that it goes before, or else just in front of task 0.
    fn enter_ready_list(&mut self, number: u8) {
        let entering = self.task(number);
        let behind =
            |&other: &u8| other == IDLE || self.order.goes_before(entering, self.task(other));
        let place = self
            .ready
            .iter()
            .position(behind)
            .expect("task 0 is in the ready list");
        self.ready.insert(place, number);
    }

    fn make_ready(&mut self, number: u8, due: Due) {
        self.task_mut(number).state = State::Ready { due: Some(due) };
        self.enter_ready_list(number);
    }

    /// Takes the running task out of the ready list, into the state given; answers which task it was.
    fn block(&mut self, state: State) -> u8 {
        let running = self.ready.remove(0);
        self.task_mut(running).state = state;
        running
    }

    fn task(&self, number: u8) -> &Task {
        &self.tasks[&number]
    }

    fn task_mut(&mut self, number: u8) -> &mut Task {
        self.tasks.get_mut(&number).expect("the task lives")
    }

    fn mailbox(&self, number: u8) -> &Mailbox {
        &self.mailboxes[&number]
    }

    fn mailbox_mut(&mut self, number: u8) -> &mut Mailbox {
        self.mailboxes
            .get_mut(&number)
            .expect("row 8 has been tried, or a task waits there")
    }
}

/// The rows of the table of refusals. Each is an error exactly when it holds; some give, when it does
/// not, what the call goes on with.
impl Kernel {
    fn row_1_answer_due(&self) -> Result<(), Refusal> {
        let task = self.running();
        refuse_if(self.due(task).is_some(), Refusal::AnswerDue { task })
    }

    fn row_2_nothing_due(&self) -> Result<Due, Refusal> {
        let task = self.running();
        self.due(task).ok_or(Refusal::NothingDue { task })
    }

    fn row_3_idle_task(&self) -> Result<(), Refusal> {
        let task = self.running();
        refuse_if(task == IDLE, Refusal::IdleTask { task })
    }

    fn row_8_no_mailbox(&self, number: u8) -> Result<(), Refusal> {
        refuse_if(
            !self.mailboxes.contains_key(&number),
            Refusal::NoMailbox { mailbox: number },
        )
    }

    fn row_9_not_empty(&self, number: u8) -> Result<(), Refusal> {
        refuse_if(
            !self.mailbox(number).is_empty(),
            Refusal::NotEmpty { mailbox: number },
        )
    }

    fn row_10_wrong_size(&self, number: u8, bytes: &[u8]) -> Result<(), Refusal> {
        refuse_if(
            bytes.len() != self.mailbox(number).size,
            Refusal::WrongSize { mailbox: number },
        )
    }

    fn row_11_short_buffer(&self, number: u8, buffer: &[u8]) -> Result<(), Refusal> {
        refuse_if(
            buffer.len() < self.mailbox(number).size,
            Refusal::ShortBuffer { mailbox: number },
        )
    }

    /// Only an answer that brings a message asks for a buffer.
    fn row_11_short_collect(&self, due: Due, buffer: &[u8]) -> Result<(), Refusal> {
        let needed = match due {
            Due::Plain(_) => 0,
            Due::Delivery { message } => {
                self.store.length(message).expect("the message due is held")
            }
        };
        refuse_if(
            buffer.len() < needed,
            Refusal::ShortCollect {
                task: self.running(),
            },
        )
    }

    fn row_12_mixed(&self, number: u8, mode: Mode) -> Result<(), Refusal> {
        let mixed = self
            .mailbox(number)
            .mode()
            .is_some_and(|queued| queued != mode);
        refuse_if(mixed, Refusal::Mixed { mailbox: number })
    }

    fn row_13_empty(&self, number: u8) -> Result<(), Refusal> {
        refuse_if(
            self.mailbox(number).queue.is_empty(),
            Refusal::Empty { mailbox: number },
        )
    }

    fn row_14_full_of_messages(&self, number: u8) -> Result<(), Refusal> {
        refuse_if(
            self.mailbox(number).queue_is_full(),
            Refusal::Full { mailbox: number },
        )
    }

    fn row_14_full_of_receivers(&self, number: u8) -> Result<(), Refusal> {
        refuse_if(
            self.mailbox(number).receivers_are_full(),
            Refusal::Full { mailbox: number },
        )
    }

    /// Gives the wake tick.
    fn row_15_too_long(&self, n: u32) -> Result<u32, Refusal> {
        self.counter.checked_add(n).ok_or(Refusal::TooLong {
            task: self.running(),
        })
    }

    /// Gives the next message number.
    fn row_16_numbers_spent(&self) -> Result<u32, Refusal> {
        self.next_message.ok_or(Refusal::NumbersSpent {
            task: self.running(),
        })
    }

    /// The units of a message that is to be displaced count as free already.
    fn row_20_store_full(
        &self,
        message: u32,
        bytes: &[u8],
        displaced: Option<u32>,
    ) -> Result<(), Refusal> {
        let freed = displaced.and_then(|displaced| self.store.length(displaced));
        let freed = freed.map_or(0, |length| self.store.kind().cost(length));
        Ok(self.store.may_put(message, bytes.len(), freed)?)
    }
}

fn row_4_bad_task_number(number: u8) -> Result<(), Refusal> {
    refuse_if(
        number == IDLE || number > LAST_TASK,
        Refusal::BadNumber { number },
    )
}

fn row_4_bad_mailbox_number(number: u8) -> Result<(), Refusal> {
    refuse_if(number > LAST_MAILBOX, Refusal::BadNumber { number })
}

fn row_5_bad_level(number: u8, level: u8) -> Result<(), Refusal> {
    refuse_if(level > LAST_LEVEL, Refusal::BadLevel { task: number })
}

fn row_6_bad_shape(number: u8, capacity: u8, size: u8) -> Result<(), Refusal> {
    let good = (1..=MOST_ENTRIES).contains(&capacity) && (1..=LARGEST_SIZE).contains(&size);
    refuse_if(!good, Refusal::BadShape { mailbox: number })
}

fn row_7_taken<T>(living: &BTreeMap<u8, T>, number: u8) -> Result<(), Refusal> {
    refuse_if(living.contains_key(&number), Refusal::Taken { number })
}

fn refuse_if(holds: bool, refusal: Refusal) -> Result<(), Refusal> {
    if holds {
        Err(refusal)
    } else {
        Ok(())
    }
}

/// To look at.
impl Kernel {
    /// The answer due to a task.
    pub fn due(&self, number: u8) -> Option<Due> {
        match self.task(number).state {
            State::Ready { due } => due,
            _ => None,
        }
    }

    /// All tasks that live, task 0 as well.
    pub fn tasks(&self) -> &BTreeMap<u8, Task> {
        &self.tasks
    }

    pub fn mailboxes(&self) -> &BTreeMap<u8, Mailbox> {
        &self.mailboxes
    }

    pub fn store(&self) -> &Store {
        &self.store
    }

    #[cfg(test)]
    pub fn order(&self) -> Order {
        self.order
    }

    pub fn counts(&self) -> Counts {
        self.counts
    }

    pub fn next_message(&self) -> Option<u32> {
        self.next_message
    }
}

/// The checks that tests make after each call.
#[cfg(test)]
impl Kernel {
    pub fn audit(&self) {
        self.audit_counts();
        self.audit_mailboxes();
        self.audit_ready_list();
        self.audit_store();
    }

    fn audit_counts(&self) {
        let counts = self.counts;
        let fates = counts.queued + counts.handed_over + counts.withdrawn + counts.displaced;
        assert_eq!(counts.accepted, fates);
        let standing: usize = self
            .mailboxes
            .values()
            .map(|mailbox| mailbox.queue.len())
            .sum();
        assert_eq!(counts.queued, standing as u64);
    }

    fn audit_mailboxes(&self) {
        for (&number, mailbox) in &self.mailboxes {
            assert!(mailbox.queue.is_empty() || mailbox.receivers.is_empty());
            assert!(mailbox.queue.len() <= mailbox.capacity);
            assert!(mailbox.receivers.len() <= mailbox.capacity);
            let waits = mailbox
                .queue
                .iter()
                .filter(|queued| queued.sender.is_some())
                .count();
            assert!(waits == 0 || waits == mailbox.queue.len());
            for queued in &mailbox.queue {
                assert_eq!(self.store.length(queued.message), Some(mailbox.size));
            }
            for receiver in &mailbox.receivers {
                let state = self.task(*receiver).state;
                assert!(matches!(state, State::Receiving { mailbox } if mailbox == number));
            }
        }
        for (&number, task) in &self.tasks {
            match task.state {
                State::Receiving { mailbox } => {
                    assert_eq!(
                        self.mailbox(mailbox)
                            .receivers
                            .iter()
                            .filter(|&&r| r == number)
                            .count(),
                        1
                    );
                }
                State::Sending { mailbox, message } => {
                    let mut queue = self.mailbox(mailbox).queue.iter();
                    assert!(queue
                        .any(|queued| queued.message == message && queued.sender == Some(number)));
                }
                _ => {}
            }
        }
    }

    fn audit_ready_list(&self) {
        assert_eq!(self.ready.last(), Some(&IDLE));
        let mut standing = self.ready.clone();
        standing.sort();
        let ready = |(&number, task): (&u8, &Task)| {
            matches!(task.state, State::Ready { .. }).then_some(number)
        };
        assert_eq!(
            standing,
            self.tasks.iter().filter_map(ready).collect::<Vec<u8>>()
        );
        for pair in self.ready[..self.ready.len() - 1].windows(2) {
            assert!(!self
                .order
                .goes_before(self.task(pair[1]), self.task(pair[0])));
        }
    }

    /// The store holds what is queued or due, and nothing else.
    fn audit_store(&self) {
        let queued = self
            .mailboxes
            .values()
            .flat_map(|mailbox| mailbox.queue.iter().map(|q| q.message));
        let due = self
            .tasks
            .keys()
            .filter_map(|&number| match self.due(number) {
                Some(Due::Delivery { message }) => Some(message),
                _ => None,
            });
        let mut expected: Vec<u32> = queued.chain(due).collect();
        expected.sort();
        assert_eq!(expected, self.store.numbers().collect::<Vec<u32>>());
        assert!(self.store.used() <= self.store.kind().capacity());
    }
}
