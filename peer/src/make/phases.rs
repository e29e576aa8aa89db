//! The phases of a script, the moves, and how likely each move is in each phase.

/// A stretch of a script that steers towards one kind of state.
#[derive(Clone, Copy, Debug, PartialEq, Eq)]
pub(super) enum Phase {
    /// Tasks and mailboxes are made.
    Populate,
    /// Tasks come to wait as receivers.
    Gather,
    /// Waiting receivers are given messages, which they do not collect at once.
    Deliver,
    /// Tasks come to wait as senders.
    Crowd,
    /// Mailboxes and the store are filled by sends that do not wait.
    Fill,
    /// Messages are received.
    Drain,
    /// Tasks sleep, the counter moves, waiting ends.
    Clockwork,
    /// Tasks are terminated and mailboxes removed.
    Teardown,
    /// Everything at once.
    Chaos,
}

pub(super) const PHASES: [Phase; 9] = [
    Phase::Populate,
    Phase::Gather,
    Phase::Deliver,
    Phase::Crowd,
    Phase::Fill,
    Phase::Drain,
    Phase::Clockwork,
    Phase::Teardown,
    Phase::Chaos,
];

#[derive(Clone, Copy, Debug)]
pub(super) enum Move {
    CreateTask,
    CreateMailbox,
    Terminate,
    RemoveMailbox,
    SendWait,
    SendNoWait,
    ReceiveWait,
    ReceiveNoWait,
    Wait,
    SetDeadline,
    SetTicks,
    Look,
    Tick,
    Collect,
    /// Several calls that lead to an edge.
    Scene,
    /// A call that more than one row of the table of refusals is likely to refuse.
    Clash,
}

/// All moves, in the order in which they are declared.
pub(super) const MOVES: [Move; 16] = [
    Move::CreateTask,
    Move::CreateMailbox,
    Move::Terminate,
    Move::RemoveMailbox,
    Move::SendWait,
    Move::SendNoWait,
    Move::ReceiveWait,
    Move::ReceiveNoWait,
    Move::Wait,
    Move::SetDeadline,
    Move::SetTicks,
    Move::Look,
    Move::Tick,
    Move::Collect,
    Move::Scene,
    Move::Clash,
];

impl Phase {
    /// How likely each of the moves is, in the order of `MOVES`.
    #[rustfmt::skip]
    pub(super) fn weights(self) -> [u32; 16] {
        match self {
            //                  create     termi  re   send     receive  wait set      look tick coll scene clash
            //                  task box   nate  move  w   nw    w   nw       dl  tk
            Phase::Populate  => [30,  20,    2,    2,  5,   5,   5,   5,   3,  4,  2,   2,   2,   2,   2,   4],
            Phase::Gather    => [ 6,   4,    1,    1,  1,   2,  60,   2,   2,  3,  1,   1,   1,   1,   2,   4],
            Phase::Deliver   => [ 4,   2,    1,    2,  8,  60,   4,   2,   2,  3,  1,   1,   1,   1,   6,   4],
            Phase::Crowd     => [ 6,   4,    1,    1, 60,   2,   2,   3,   2,  3,  1,   1,   1,   1,   2,   4],
            Phase::Fill      => [ 3,  12,    1,    1,  5,  70,   2,   2,   2,  2,  1,   1,   1,   1,   8,   4],
            Phase::Drain     => [ 3,   3,    2,    8,  3,   3,  12,  50,   2,  3,  1,   2,   2,   2,   2,   4],
            Phase::Clockwork => [ 6,   3,    2,    1,  4,   3,   4,   2,  25,  8, 10,   3,  25,   2,   8,   4],
            Phase::Teardown  => [ 1,   2,   30,   30,  2,   2,   2,  10,   2,  1,  1,   2,   4,   2,   1,   4],
            Phase::Chaos     => [ 8,   8,    4,    6, 10,  14,  10,  10,   8,  6,  5,   5,   8,   5,   5,   9],
        }
    }
}
