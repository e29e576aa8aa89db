//! Scripts: the calls as text, the stages in which they may come, and the answers as text.

use crate::answer::{Answer, Counts, Refusal};
use crate::kernel::{init_kernel, Kernel, Order, StartUp};
use crate::store::{Store, StoreKind};
use std::fmt;
use std::io::{self, BufRead, Write};

/// What a lent buffer is filled with before the call.
pub const FILL: u8 = 0xaa;
pub const LONGEST_BUFFER: u32 = 1024;

#[derive(Clone, Debug, PartialEq, Eq)]
pub enum Call {
    Kernel {
        store: StoreKind,
        order: Order,
        first: u32,
    },
    CreateTask {
        number: u8,
        deadline: u32,
        level: u8,
    },
    CreateMailbox {
        number: u8,
        capacity: u8,
        size: u8,
    },
    Run,
    Terminate,
    RemoveMailbox {
        number: u8,
    },
    SendWait {
        number: u8,
        bytes: Vec<u8>,
    },
    SendNoWait {
        number: u8,
        bytes: Vec<u8>,
    },
    ReceiveWait {
        number: u8,
        length: u32,
    },
    ReceiveNoWait {
        number: u8,
        length: u32,
    },
    Wait {
        n: u32,
    },
    Collect {
        length: u32,
    },
    SetDeadline {
        n: u32,
    },
    SetTicks {
        n: u32,
    },
    Ticks,
    Deadline,
    Running,
    Tick,
    Close,
}

/// The calls, each with the fewest and the most arguments that it takes.
const CALLS: [(&str, usize, usize); 19] = [
    ("kernel", 3, 3),
    ("create_task", 3, 3),
    ("create_mailbox", 3, 3),
    ("run", 0, 0),
    ("terminate", 0, 0),
    ("remove_mailbox", 1, 1),
    ("send_wait", 1, 2),
    ("send_no_wait", 1, 2),
    ("receive_wait", 2, 2),
    ("receive_no_wait", 2, 2),
    ("wait", 1, 1),
    ("collect", 1, 1),
    ("set_deadline", 1, 1),
    ("set_ticks", 1, 1),
    ("ticks", 0, 0),
    ("deadline", 0, 0),
    ("running", 0, 0),
    ("tick", 0, 0),
    ("close", 0, 0),
];

/// What is wrong with a line. Words are bytes, as a script may hold any.
#[derive(Clone, Debug, PartialEq, Eq)]
pub enum Fault {
    NoCall {
        word: Vec<u8>,
    },
    /// The call comes `before` or `after` another one that it may not come before or after.
    WrongStage {
        call: &'static str,
        side: &'static str,
        other: &'static str,
    },
    WrongCount {
        call: &'static str,
        fewest: usize,
        most: usize,
        given: usize,
    },
    NotANumber {
        name: &'static str,
        max: u32,
        word: Vec<u8>,
    },
    NotHex {
        word: Vec<u8>,
    },
    NotAStore {
        word: Vec<u8>,
    },
    NotAnOrder {
        word: Vec<u8>,
    },
}

impl Fault {
    /// The text, without the line's number.
    pub fn text(&self) -> Vec<u8> {
        let quoted = |before: String, word: &[u8]| [before.as_bytes(), b" `", word, b"`"].concat();
        match self {
            Fault::NoCall { word } => quoted("no call".to_string(), word),
            Fault::WrongStage { call, side, other } => {
                format!("{call} {side} {other}").into_bytes()
            }
            Fault::WrongCount {
                call,
                fewest,
                most,
                given,
            } => format!("{call} takes {}, not {given}", arguments(*fewest, *most)).into_bytes(),
            Fault::NotANumber { name, max, word } => {
                quoted(format!("{name} is not a number from 0 to {max}:"), word)
            }
            Fault::NotHex { word } => {
                quoted("HEX is not pairs of hexadecimal digits:".to_string(), word)
            }
            Fault::NotAStore { word } => quoted("STORE is not slot or packed:".to_string(), word),
            Fault::NotAnOrder { word } => {
                quoted("ORDER is not deadline or level:".to_string(), word)
            }
        }
    }
}

fn arguments(fewest: usize, most: usize) -> String {
    match (fewest, most) {
        (1, 1) => "1 argument".to_string(),
        (fewest, most) if fewest == most => format!("{most} arguments"),
        (fewest, most) => format!("{fewest} or {most} arguments"),
    }
}

/// Reads a call from the words of a line, which are one or more. What is wrong is looked for in this
/// order: the word of the call, the stage, the number of arguments, the arguments from the left.
pub fn read_call(words: &[&[u8]], stage: &Stage) -> Result<Call, Fault> {
    let (word, given) = (words[0], words.len() - 1);
    let (call, fewest, most) = *CALLS
        .iter()
        .find(|(call, _, _)| call.as_bytes() == word)
        .ok_or_else(|| Fault::NoCall {
            word: word.to_vec(),
        })?;
    stage.admits(call)?;
    if given < fewest || given > most {
        return Err(Fault::WrongCount {
            call,
            fewest,
            most,
            given,
        });
    }
    read_arguments(call, &words[1..])
}

/// Reads the arguments of a call, whose count is right. (The fields of a case are read in the order in
/// which they stand here, which is the order of the words.)
fn read_arguments(call: &'static str, words: &[&[u8]]) -> Result<Call, Fault> {
    let number = || byte("NUMBER", words[0]);
    let n = || word32("N", words[0]);
    let bytes = || words.get(1).map_or(Ok(Vec::new()), |word| hex(word));
    let length = |word| decimal("LENGTH", LONGEST_BUFFER, word);
    Ok(match call {
        "kernel" => Call::Kernel {
            store: store_kind(words[0])?,
            order: order(words[1])?,
            first: word32("FIRST", words[2])?,
        },
        "create_task" => Call::CreateTask {
            number: number()?,
            deadline: word32("DEADLINE", words[1])?,
            level: byte("LEVEL", words[2])?,
        },
        "create_mailbox" => Call::CreateMailbox {
            number: number()?,
            capacity: byte("CAPACITY", words[1])?,
            size: byte("SIZE", words[2])?,
        },
        "run" => Call::Run,
        "terminate" => Call::Terminate,
        "remove_mailbox" => Call::RemoveMailbox { number: number()? },
        "send_wait" => Call::SendWait {
            number: number()?,
            bytes: bytes()?,
        },
        "send_no_wait" => Call::SendNoWait {
            number: number()?,
            bytes: bytes()?,
        },
        "receive_wait" => Call::ReceiveWait {
            number: number()?,
            length: length(words[1])?,
        },
        "receive_no_wait" => Call::ReceiveNoWait {
            number: number()?,
            length: length(words[1])?,
        },
        "wait" => Call::Wait { n: n()? },
        "collect" => Call::Collect {
            length: length(words[0])?,
        },
        "set_deadline" => Call::SetDeadline { n: n()? },
        "set_ticks" => Call::SetTicks { n: n()? },
        "ticks" => Call::Ticks,
        "deadline" => Call::Deadline,
        "running" => Call::Running,
        "tick" => Call::Tick,
        "close" => Call::Close,
        _ => unreachable!("{call} is no word of the table of calls"),
    })
}

fn byte(name: &'static str, word: &[u8]) -> Result<u8, Fault> {
    decimal(name, u32::from(u8::MAX), word).map(|value| value as u8)
}

fn word32(name: &'static str, word: &[u8]) -> Result<u32, Fault> {
    decimal(name, u32::MAX, word)
}

/// One or more decimal digits, leading zeros among them, up to a largest value.
fn decimal(name: &'static str, max: u32, word: &[u8]) -> Result<u32, Fault> {
    let mut value: u64 = 0;
    let mut good = !word.is_empty();
    for &character in word {
        good = good && character.is_ascii_digit();
        if good {
            value = value * 10 + u64::from(character - b'0');
            good = value <= u64::from(max);
        }
    }
    if good {
        Ok(value as u32)
    } else {
        Err(Fault::NotANumber {
            name,
            max,
            word: word.to_vec(),
        })
    }
}

fn hex(word: &[u8]) -> Result<Vec<u8>, Fault> {
    let digit = |&character: &u8| (character as char).to_digit(16).map(|value| value as u8);
    let digits: Option<Vec<u8>> = word.iter().map(digit).collect();
    match digits {
        Some(digits) if digits.len() % 2 == 0 => Ok(digits
            .chunks_exact(2)
            .map(|pair| pair[0] * 16 + pair[1])
            .collect()),
        _ => Err(Fault::NotHex {
            word: word.to_vec(),
        }),
    }
}

fn store_kind(word: &[u8]) -> Result<StoreKind, Fault> {
    match word {
        b"slot" => Ok(StoreKind::Slot),
        b"packed" => Ok(StoreKind::Packed),
        _ => Err(Fault::NotAStore {
            word: word.to_vec(),
        }),
    }
}

fn order(word: &[u8]) -> Result<Order, Fault> {
    match word {
        b"deadline" => Ok(Order::Deadline),
        b"level" => Ok(Order::Level),
        _ => Err(Fault::NotAnOrder {
            word: word.to_vec(),
        }),
    }
}

/// A kind of kernel, by the words of its store and its order.
pub fn kind(store_word: &str, order_word: &str) -> Option<(StoreKind, Order)> {
    Some((
        store_kind(store_word.as_bytes()).ok()?,
        order(order_word.as_bytes()).ok()?,
    ))
}

impl Call {
    /// The word that names the call.
    pub fn name(&self) -> &'static str {
        match self {
            Call::Kernel { .. } => "kernel",
            Call::CreateTask { .. } => "create_task",
            Call::CreateMailbox { .. } => "create_mailbox",
            Call::Run => "run",
            Call::Terminate => "terminate",
            Call::RemoveMailbox { .. } => "remove_mailbox",
            Call::SendWait { .. } => "send_wait",
            Call::SendNoWait { .. } => "send_no_wait",
            Call::ReceiveWait { .. } => "receive_wait",
            Call::ReceiveNoWait { .. } => "receive_no_wait",
            Call::Wait { .. } => "wait",
            Call::Collect { .. } => "collect",
            Call::SetDeadline { .. } => "set_deadline",
            Call::SetTicks { .. } => "set_ticks",
            Call::Ticks => "ticks",
            Call::Deadline => "deadline",
            Call::Running => "running",
            Call::Tick => "tick",
            Call::Close => "close",
        }
    }

    /// The words of the call's arguments, as a script has them.
    pub fn arguments(&self) -> Vec<String> {
        match self {
            Call::Kernel {
                store,
                order,
                first,
            } => {
                vec![
                    store_word(*store).into(),
                    order_word(*order).into(),
                    first.to_string(),
                ]
            }
            Call::CreateTask {
                number,
                deadline,
                level,
            } => {
                vec![number.to_string(), deadline.to_string(), level.to_string()]
            }
            Call::CreateMailbox {
                number,
                capacity,
                size,
            } => {
                vec![number.to_string(), capacity.to_string(), size.to_string()]
            }
            Call::RemoveMailbox { number } => vec![number.to_string()],
            Call::SendWait { number, bytes } | Call::SendNoWait { number, bytes } => {
                let mut words = vec![number.to_string()];
                if !bytes.is_empty() {
                    words.push(hex_text(bytes));
                }
                words
            }
            Call::ReceiveWait { number, length } | Call::ReceiveNoWait { number, length } => {
                vec![number.to_string(), length.to_string()]
            }
            Call::Wait { n } | Call::SetDeadline { n } | Call::SetTicks { n } => {
                vec![n.to_string()]
            }
            Call::Collect { length } => vec![length.to_string()],
            Call::Run | Call::Terminate | Call::Ticks | Call::Deadline => vec![],
            Call::Running | Call::Tick | Call::Close => vec![],
        }
    }
}

fn store_word(store: StoreKind) -> &'static str {
    match store {
        StoreKind::Slot => "slot",
        StoreKind::Packed => "packed",
    }
}

fn order_word(order: Order) -> &'static str {
    match order {
        Order::Deadline => "deadline",
        Order::Level => "level",
    }
}

/// Bytes as lower-case hexadecimal digits.
pub fn hex_text(bytes: &[u8]) -> String {
    const DIGITS: &[u8; 16] = b"0123456789abcdef";
    let digit = |value: u8| DIGITS[usize::from(value)] as char;
    bytes
        .iter()
        .flat_map(|byte| [digit(byte >> 4), digit(byte & 15)])
        .collect()
}

/// What a call of a script answers.
#[derive(Clone, Debug, PartialEq, Eq)]
pub enum Outcome {
    /// Of `kernel` and `run`.
    Done,
    Answered(Answer),
    /// An answer that brings a message, with the buffer as the call left it.
    Brought(Answer, Vec<u8>),
    Refused(Refusal),
    /// Of `ticks`, `deadline` and `running`.
    Number(u32),
    Ticked {
        readied: usize,
        running: u8,
    },
    Closed(Counts),
}

impl fmt::Display for Outcome {
    fn fmt(&self, f: &mut fmt::Formatter) -> fmt::Result {
        match self {
            Outcome::Done => f.write_str("OK"),
            Outcome::Answered(answer) => write!(f, "{answer}"),
            Outcome::Brought(answer, buffer) => write!(f, "{answer} buffer={}", hex_text(buffer)),
            Outcome::Refused(refusal) => write!(f, "{refusal}"),
            Outcome::Number(number) => write!(f, "{number}"),
            Outcome::Ticked { readied, running } => {
                write!(f, "readied={readied} running={running}")
            }
            Outcome::Closed(counts) => write!(f, "{counts}"),
        }
    }
}

/// How far a script has come.
#[derive(Clone, Debug)]
pub enum Stage {
    BeforeKernel,
    StartUp(StartUp),
    Running(Kernel),
    Closed,
}

impl Stage {
    /// Whether a call of this name may come now.
    fn admits(&self, call: &'static str) -> Result<(), Fault> {
        let wrong = |side, other| Err(Fault::WrongStage { call, side, other });
        match (self, call) {
            (Stage::BeforeKernel, "kernel") => Ok(()),
            (Stage::BeforeKernel, _) => wrong("before", "kernel"),
            (Stage::Closed, _) => wrong("after", "close"),
            (_, "kernel") => wrong("after", "kernel"),
            (Stage::StartUp(_), "create_task" | "create_mailbox" | "run") => Ok(()),
            (Stage::StartUp(_), _) => wrong("before", "run"),
            (Stage::Running(_), "run") => wrong("after", "run"),
            (Stage::Running(_), _) => Ok(()),
        }
    }

    /// Plays a call that may come now.
    pub fn play(&mut self, call: &Call) -> Outcome {
        match (call, &mut *self) {
            (
                &Call::Kernel {
                    store,
                    order,
                    first,
                },
                _,
            ) => {
                *self = Stage::StartUp(init_kernel(Store::new(store), order, first));
                Outcome::Done
            }
            (Call::Run, _) => {
                let Stage::StartUp(start) = std::mem::replace(self, Stage::Closed) else {
                    panic!("run is a call of the start-up stage");
                };
                *self = Stage::Running(start.run());
                Outcome::Done
            }
            (Call::Close, _) => {
                let Stage::Running(kernel) = std::mem::replace(self, Stage::Closed) else {
                    panic!("close is a call of the running stage");
                };
                Outcome::Closed(kernel.close())
            }
            (call, Stage::StartUp(start)) => play_on_start_up(start, call),
            (call, Stage::Running(kernel)) => play_on_kernel(kernel, call),
            (call, _) => panic!("{} has no kernel", call.name()),
        }
    }

    /// The kernel, if there is one, to look at.
    pub fn kernel(&self) -> Option<&Kernel> {
        match self {
            Stage::StartUp(start) => Some(start.view()),
            Stage::Running(kernel) => Some(kernel),
            Stage::BeforeKernel | Stage::Closed => None,
        }
    }
}

fn play_on_start_up(start: &mut StartUp, call: &Call) -> Outcome {
    match *call {
        Call::CreateTask {
            number,
            deadline,
            level,
        } => plain(start.create_task(number, deadline, level)),
        Call::CreateMailbox {
            number,
            capacity,
            size,
        } => plain(start.create_mailbox(number, capacity, size)),
        _ => panic!("{} is no call of the start-up stage", call.name()),
    }
}

fn play_on_kernel(kernel: &mut Kernel, call: &Call) -> Outcome {
    match *call {
        Call::CreateTask {
            number,
            deadline,
            level,
        } => plain(kernel.create_task(number, deadline, level)),
        Call::CreateMailbox {
            number,
            capacity,
            size,
        } => plain(kernel.create_mailbox(number, capacity, size)),
        Call::Terminate => plain(kernel.terminate()),
        Call::RemoveMailbox { number } => plain(kernel.remove_mailbox(number)),
        Call::SendWait { number, ref bytes } => plain(kernel.send_wait(number, bytes)),
        Call::SendNoWait { number, ref bytes } => plain(kernel.send_no_wait(number, bytes)),
        Call::ReceiveWait { number, length } => {
            lent(length, |buffer| kernel.receive_wait(number, buffer))
        }
        Call::ReceiveNoWait { number, length } => {
            lent(length, |buffer| kernel.receive_no_wait(number, buffer))
        }
        Call::Collect { length } => lent(length, |buffer| kernel.collect(buffer)),
        Call::Wait { n } => plain(kernel.wait(n)),
        Call::SetDeadline { n } => plain(kernel.set_deadline(n)),
        Call::SetTicks { n } => plain(kernel.set_ticks(n)),
        Call::Ticks => Outcome::Number(kernel.ticks()),
        Call::Deadline => Outcome::Number(kernel.deadline()),
        Call::Running => Outcome::Number(u32::from(kernel.running())),
        Call::Tick => {
            let (readied, running) = kernel.tick();
            Outcome::Ticked { readied, running }
        }
        Call::Kernel { .. } | Call::Run | Call::Close => {
            panic!("{} changes the stage", call.name())
        }
    }
}

/// The outcome of a call that is lent no buffer.
fn plain(result: Result<Answer, Refusal>) -> Outcome {
    match result {
        Ok(answer) => Outcome::Answered(answer),
        Err(refusal) => Outcome::Refused(refusal),
    }
}

/// The outcome of a call that is lent a buffer of this length. Only a call that brings a message may
/// write to the buffer.
fn lent(length: u32, call: impl FnOnce(&mut [u8]) -> Result<Answer, Refusal>) -> Outcome {
    let mut buffer = vec![FILL; length as usize];
    match plain(call(&mut buffer)) {
        Outcome::Answered(answer) if answer.length.is_some() => Outcome::Brought(answer, buffer),
        outcome => {
            debug_assert!(buffer.iter().all(|&byte| byte == FILL));
            outcome
        }
    }
}

/// Why a script was not played to its end.
#[derive(Debug)]
pub enum Stop {
    /// A line is no call of its stage.
    BadLine { line: u64, fault: Fault },
    /// The script cannot be read.
    Input(io::Error),
    /// The answers cannot be written.
    Output(io::Error),
}

impl Stop {
    /// The text for standard error, without the line feed.
    pub fn text(&self) -> Vec<u8> {
        match self {
            Stop::BadLine { line, fault } => {
                [format!("error: line {line}: ").as_bytes(), &fault.text()].concat()
            }
            Stop::Input(error) => format!("error: standard input: {error}").into_bytes(),
            Stop::Output(error) => format!("error: standard output: {error}").into_bytes(),
        }
    }
}

/// Plays a script, line by line, and writes the answers. All answers up to a bad line are written.
pub fn replay(mut script: impl BufRead, mut answers: impl Write) -> Result<(), Stop> {
    let mut stage = Stage::BeforeKernel;
    let mut line = Vec::new();
    let mut number = 0;
    loop {
        line.clear();
        if script.read_until(b'\n', &mut line).map_err(Stop::Input)? == 0 {
            return answers.flush().map_err(Stop::Output);
        }
        number += 1;
        let played = play_line(&line, &mut stage);
        match played {
            Ok(None) => {}
            Ok(Some((words, outcome))) => {
                write_answer(&mut answers, &words, &outcome).map_err(Stop::Output)?
            }
            Err(fault) => {
                answers.flush().map_err(Stop::Output)?;
                return Err(Stop::BadLine {
                    line: number,
                    fault,
                });
            }
        }
    }
}

/// The words of a call and what it answered.
pub type Played<'a> = (Vec<&'a [u8]>, Outcome);

/// Plays a line, which may end with a line feed. A line that is passed over gives nothing; else its
/// words and the outcome are given.
pub fn play_line<'a>(line: &'a [u8], stage: &mut Stage) -> Result<Option<Played<'a>>, Fault> {
    let words = words_of(line);
    if words.first().is_none_or(|word| word.starts_with(b"#")) {
        return Ok(None);
    }
    let call = read_call(&words, stage)?;
    let outcome = stage.play(&call);
    Ok(Some((words, outcome)))
}

fn words_of(line: &[u8]) -> Vec<&[u8]> {
    let line = line.strip_suffix(b"\n").unwrap_or(line);
    let blank = |character: &u8| matches!(character, b' ' | b'\t' | b'\r');
    line.split(blank).filter(|word| !word.is_empty()).collect()
}

fn write_answer(answers: &mut impl Write, words: &[&[u8]], outcome: &Outcome) -> io::Result<()> {
    for word in words {
        answers.write_all(word)?;
        answers.write_all(b" ")?;
    }
    writeln!(answers, "-> {outcome}")
}
