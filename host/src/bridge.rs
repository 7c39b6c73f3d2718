//! The archive's calls where it is for another processor than the tests: each goes to a small
//! server that is linked with the archive and runs under an emulator.

use crate::network::{Answer, Filled, Gauge, Network, NetworkMut};
use std::cell::RefCell;
use std::io::{Read, Write};
use std::process::{Child, ChildStdin, ChildStdout, Command, Stdio};

/// The numbers that the server knows the calls by.
const CHECK: u32 = 0;
const MEASURE: u32 = 1;
const SOLVE: u32 = 2;
const REBUILD: u32 = 3;
const READ: u32 = 4;
const PRINT: u32 = 5;
const GAUGE: u32 = 6;

/// The bytes of an answer, and those behind the last row.
const ANSWER: usize = 32;
const FENCE: [u8; 8] = [0x5a, 0xfe, 0, 1, 0x5a, 0xfe, 0, 1];

thread_local! {
    static SERVER: RefCell<Server> = RefCell::new(Server::start());
}

struct Server {
    process: Child,
    input: Option<ChildStdin>,
    output: ChildStdout,
}

impl Drop for Server {
    /// It ends by itself when its input is closed.
    fn drop(&mut self) {
        self.input = None;
        self.process.wait().expect("the server ends");
    }
}

impl Server {
    fn start() -> Self {
        let mut process = Command::new(env!("RUBBLEWALTZ_EMULATOR"))
            .arg(env!("RUBBLEWALTZ_SERVER"))
            .stdin(Stdio::piped())
            .stdout(Stdio::piped())
            .spawn()
            .expect("the emulator starts");
        Server {
            input: process.stdin.take(),
            output: process.stdout.take().expect("a pipe"),
            process,
        }
    }

    fn ask(&mut self, request: &[u8], reply_length: usize) -> Vec<u8> {
        let input = self.input.as_mut().expect("a pipe");
        input.write_all(request).expect("the server listens");
        let mut reply = vec![0; reply_length];
        self.output
            .read_exact(&mut reply)
            .expect("the server replies");
        reply
    }
}

/// The bytes of the rows that a call is lent: the network's six, and the three that go with them.
type Lent = [Vec<u8>; 9];

/// Gives the call's answer, and the rows as it left them.
fn call(number: u32, lent: &Lent) -> (Filled, Lent) {
    let sizes = lent.iter().map(|row| row.len() as u32);
    let words: Vec<u32> = [number].into_iter().chain(sizes).collect();
    let rows = lent.concat();
    let request = [&words_to_bytes(&words), &rows, &FENCE[..]].concat();
    let reply_length = ANSWER + rows.len() + FENCE.len();
    let reply = SERVER.with_borrow_mut(|server| server.ask(&request, reply_length));
    let (answer, mut rest) = reply.split_at(ANSWER);
    let left = lent.each_ref().map(|row| {
        let (row, behind) = rest.split_at(row.len());
        rest = behind;
        row.to_vec()
    });
    assert_eq!(rest, FENCE, "nothing is written past the last row");
    (to_answer(answer), left)
}

fn to_answer(bytes: &[u8]) -> Filled {
    let words = bytes_to_words(bytes);
    let wide = |k: usize| u64::from(words[k]) | u64::from(words[k + 1]) << 32;
    Filled {
        code: words[0],
        place: words[1],
        cost: wide(2),
        events: wide(4) as usize,
        arcs: wide(6) as usize,
    }
}

fn words_to_bytes(row: &[u32]) -> Vec<u8> {
    row.iter().flat_map(|entry| entry.to_le_bytes()).collect()
}

fn signed_to_bytes(row: &[i32]) -> Vec<u8> {
    row.iter().flat_map(|entry| entry.to_le_bytes()).collect()
}

fn bytes_to_words(bytes: &[u8]) -> Vec<u32> {
    bytes
        .chunks_exact(4)
        .map(|word| u32::from_le_bytes([word[0], word[1], word[2], word[3]]))
        .collect()
}

fn bytes_to_signed(bytes: &[u8]) -> Vec<i32> {
    let words = bytes_to_words(bytes);
    words.iter().map(|&word| word as i32).collect()
}

fn lend(network: &Network, [seventh, eighth, ninth]: [Vec<u8>; 3]) -> Lent {
    [
        words_to_bytes(network.periods),
        words_to_bytes(network.tail),
        words_to_bytes(network.head),
        signed_to_bytes(network.lower),
        signed_to_bytes(network.upper),
        words_to_bytes(network.weight),
        seventh,
        eighth,
        ninth,
    ]
}

/// What a call on a timetable answers, and the times, the tensions and the turns as it left them.
struct Reply {
    answer: Answer,
    times: Vec<u32>,
    tensions: Vec<i32>,
    turns: Vec<i32>,
}

fn call_on_timetable(
    number: u32,
    network: &Network,
    times: &[u32],
    tensions: &[i32],
    turns: &[i32],
) -> Reply {
    let own = [
        words_to_bytes(times),
        signed_to_bytes(tensions),
        signed_to_bytes(turns),
    ];
    let lent = lend(network, own);
    let (answer, left) = call(number, &lent);
    assert_eq!(left[..6], lent[..6], "the network's rows are kept");
    Reply {
        answer: answer.into(),
        times: bytes_to_words(&left[6]),
        tensions: bytes_to_signed(&left[7]),
        turns: bytes_to_signed(&left[8]),
    }
}

/// Is the timetable right? Codes 1 to 9, 14, 15, 18, or 0 with the cost.
pub fn check(network: &Network, times: &[u32]) -> Answer {
    let reply = call_on_timetable(CHECK, network, times, &[], &[]);
    assert_eq!(reply.times, times, "check reads the times");
    reply.answer
}

/// The timetable's tensions, turns and cost. Codes 1 to 9, 14, 18, or 0 with tensions and turns
/// 0..m written.
pub fn measure(
    network: &Network,
    times: &[u32],
    tensions: &mut [i32],
    turns: &mut [i32],
) -> Answer {
    let reply = call_on_timetable(MEASURE, network, times, tensions, turns);
    assert_eq!(reply.times, times, "measure reads the times");
    tensions.copy_from_slice(&reply.tensions);
    turns.copy_from_slice(&reply.turns);
    reply.answer
}

/// The smallest feasible timetable. Codes 1 to 10, 18, or 0 with times 0..n, tensions and turns
/// 0..m written.
pub fn solve(
    network: &Network,
    times: &mut [u32],
    tensions: &mut [i32],
    turns: &mut [i32],
) -> Answer {
    let reply = call_on_timetable(SOLVE, network, times, tensions, turns);
    times.copy_from_slice(&reply.times);
    tensions.copy_from_slice(&reply.tensions);
    turns.copy_from_slice(&reply.turns);
    reply.answer
}

/// The timetable of these tensions. Codes 1 to 9, 11 to 13, 18, or 0 with times 0..n written.
pub fn rebuild(network: &Network, tensions: &[i32], times: &mut [u32]) -> Answer {
    let reply = call_on_timetable(REBUILD, network, times, tensions, &[]);
    assert_eq!(reply.tensions, tensions, "rebuild reads the tensions");
    times.copy_from_slice(&reply.times);
    reply.answer
}

/// The calls on texts have no ninth row.
fn texts(events: &[u8], arcs: &[u8]) -> [Vec<u8>; 3] {
    [events.to_vec(), arcs.to_vec(), Vec::new()]
}

/// The network of two texts. Codes 9, 16, 17, or 0 with periods 0..n and arcs 0..m written.
pub fn read(events: &[u8], arcs: &[u8], network: NetworkMut) -> Filled {
    let lent = lend(&network.network(), texts(events, arcs));
    let (answer, left) = call(READ, &lent);
    assert_eq!(left[6..], lent[6..], "read reads the texts");
    network.periods.copy_from_slice(&bytes_to_words(&left[0]));
    network.tail.copy_from_slice(&bytes_to_words(&left[1]));
    network.head.copy_from_slice(&bytes_to_words(&left[2]));
    network.lower.copy_from_slice(&bytes_to_signed(&left[3]));
    network.upper.copy_from_slice(&bytes_to_signed(&left[4]));
    network.weight.copy_from_slice(&bytes_to_words(&left[5]));
    answer
}

/// The two texts of a network. Codes 1, 3, 9, or 0 with both texts written.
pub fn print(network: &Network, events: &mut [u8], arcs: &mut [u8]) -> Filled {
    let lent = lend(network, texts(events, arcs));
    let (answer, left) = call(PRINT, &lent);
    assert_eq!(left[..6], lent[..6], "the network's rows are kept");
    events.copy_from_slice(&left[6]);
    arcs.copy_from_slice(&left[7]);
    answer
}

/// What solve's closure makes of a network. Codes 1 to 9, 18, or 0 with five numbers for each arc
/// written. The server puts the rounds where an answer has its place, and the arcs for its cost.
pub fn gauge(network: &Network, longer: &mut [u32]) -> Gauge {
    let lent = lend(network, [words_to_bytes(longer), Vec::new(), Vec::new()]);
    let (answer, left) = call(GAUGE, &lent);
    assert_eq!(left[..6], lent[..6], "the network's rows are kept");
    longer.copy_from_slice(&bytes_to_words(&left[6]));
    Gauge {
        code: answer.code,
        rounds: answer.place,
        arcs: answer.cost,
    }
}
