//! Compares the proved libraries with plain Rust: 01's samples, random legal tables and damaged ones, each with all four
//! questions, from log-in and in mid-shift, and with the panel's two, with rooms that are short, exact and longer. Every room is
//! filled with random numbers before a call, so that what must be kept is seen to be kept. Where a loop is answered each side's
//! loop is held to 01's definition, since which one is written is free. Windows are also held to shortest paths over all demands
//! (plain/windows.rs), and each second to the exact fraction that it stands for, in whole numbers. Then log-in and scans: those
//! that are known, shifts of random tables, and running records of all kinds; and trays of scans, each also held to the same scans
//! given singly. Last cards, to tables and back: those that are known, cards of random tables and damaged ones.
//!
//! Prints counts and "compare: N agreed, 0 differ". Exit status 1 where something differs, or where a kind of answer did not
//! occur.

#[path = "card.rs"]
mod card;
#[path = "../plain/cards.rs"]
mod cards;
#[path = "judge.rs"]
mod judge;
#[path = "panel.rs"]
mod panel;
#[path = "../plain/plain.rs"]
mod plain;
#[path = "scan.rs"]
mod scan;
#[path = "../plain/scans.rs"]
mod scans;
#[path = "tray.rs"]
mod tray;
#[path = "../plain/windows.rs"]
mod windows;

use plain::{entries, Start, Window};
use std::collections::{BTreeMap, HashMap, HashSet};
use std::fmt::Arguments;

const STARTS: [Start; 2] = [Start::LogIn, Start::MidShift];

fn variant(start: Start) -> &'static str {
    match start {
        Start::LogIn => "from log-in",
        Start::MidShift => "in mid-shift",
    }
}

type Short = fn(&[u8], &mut [u64]) -> bool;

/// The questions in one variant, as one side answers them.
struct Questions {
    rounds: Short,
    plan: fn(&[u8], u64, &mut [u64], &mut [u64], &mut [u64], &mut [u64]) -> bool,
    demands: fn(&[u8], u64, &mut [i64], &mut [u64]) -> bool,
}

/// Number, place and mark, and two times.
type Widest = ([u64; 3], [f64; 2]);

/// All questions, as one side answers them.
struct Side {
    read: Short,
    log_in: Questions,
    mid_shift: Questions,
    windows: fn(&[u8], u64, &mut [u8], &mut [f64], &mut [u64]) -> bool,
    widest: fn(&[u8], u64) -> Widest,
    /// Log-in, which writes a running record.
    begin: fn(u16, &mut [u16]) -> bool,
    scan: fn(&[u8], u16, &mut [u16], &mut [u64]) -> bool,
    tray: fn(&[u8], &[u16], &mut [u16], &mut [u16], &mut [u64]) -> bool,
    to_table: fn(&[u8], &mut [u8], &mut [u64]) -> bool,
    from_table: fn(&[u8], &mut [u8], &mut [u64]) -> bool,
}

impl Side {
    fn questions(&self, start: Start) -> &Questions {
        match start {
            Start::LogIn => &self.log_in,
            Start::MidShift => &self.mid_shift,
        }
    }
}

const PROVED: Side = Side {
    read: judge::read,
    log_in: Questions {
        rounds: judge::rounds,
        plan: judge::plan,
        demands: judge::demands,
    },
    mid_shift: Questions {
        rounds: judge::rounds_mid_shift,
        plan: judge::plan_mid_shift,
        demands: judge::demands_mid_shift,
    },
    windows: panel::windows,
    widest: panel::widest,
    begin: scan::log_in,
    scan: scan::one,
    tray: tray::scan,
    to_table: card::to_table,
    from_table: card::from_table,
};

const PLAIN: Side = Side {
    read: entries::read,
    log_in: Questions {
        rounds: entries::rounds,
        plan: entries::plan,
        demands: entries::demands,
    },
    mid_shift: Questions {
        rounds: entries::rounds_mid_shift,
        plan: entries::plan_mid_shift,
        demands: entries::demands_mid_shift,
    },
    windows: entries::windows,
    widest: entries::widest,
    begin: scans::entries::log_in,
    scan: scans::entries::scan,
    tray: scans::entries::tray,
    to_table: cards::entries::to_table,
    from_table: cards::entries::from_table,
};

/// Random numbers from a fixed seed (splitmix64).
struct Random(u64);

impl Random {
    fn next(&mut self) -> u64 {
        self.0 = self.0.wrapping_add(0x9e37_79b9_7f4a_7c15);
        let z = (self.0 ^ (self.0 >> 30)).wrapping_mul(0xbf58_476d_1ce4_e5b9);
        let z = (z ^ (z >> 27)).wrapping_mul(0x94d0_49bb_1331_11eb);
        z ^ (z >> 31)
    }

    /// From a to b, both included.
    fn within(&mut self, a: usize, b: usize) -> usize {
        a + (self.next() % (b - a + 1) as u64) as usize
    }

    fn one_in(&mut self, n: usize) -> bool {
        self.within(1, n) == 1
    }

    fn room(&mut self, len: usize) -> Vec<u64> {
        (0..len).map(|_| self.next()).collect()
    }

    fn row(&mut self, len: usize) -> Vec<u16> {
        (0..len).map(|_| self.next() as u16).collect()
    }

    fn bytes(&mut self, len: usize, most: usize) -> Vec<u8> {
        (0..len).map(|_| self.within(0, most) as u8).collect()
    }
}

// Tables.

const UNDER: u8 = 0;
const AT_MOST: u8 = 1;
const EXACTLY: u8 = 2;
const AT_LEAST: u8 = 3;
const OVER: u8 = 4;

fn guard(clock: usize, relation: u8, constant: usize) -> Vec<u8> {
    let [low, high] = (constant as u16).to_le_bytes();
    vec![2, clock as u8, relation, low, high]
}

fn reset(clock: usize) -> Vec<u8> {
    vec![3, clock as u8]
}

/// A table of these steps, each a list of its records.
fn table(clocks: usize, steps: &[Vec<Vec<u8>>]) -> Vec<u8> {
    let mut bytes = vec![1, clocks as u8];
    for step in steps {
        bytes.extend(step.concat());
        bytes.push(4);
    }
    bytes.push(5);
    bytes
}

/// A random legal table.
fn legal(random: &mut Random) -> Vec<u8> {
    let clocks = random.within(1, 6);
    let most = *[1, 2, 5, 16].get(random.within(0, 3)).unwrap();
    let length = random.within(1, most);
    let mut steps = match random.within(0, 4) {
        0 => any(random, clocks, length, 6),
        1 => any(random, clocks, length, 4000),
        2 => draining(random, clocks, length),
        _ => scheduled(random, clocks, length),
    };
    for step in &mut steps {
        for i in (1..step.len()).rev() {
            step.swap(i, random.within(0, i));
        }
    }
    table(clocks, &steps)
}

/// Resets of some clocks, each once.
fn some_resets(random: &mut Random, clocks: usize) -> Vec<Vec<u8>> {
    let mut resets = Vec::new();
    for _ in 0..[0, 1, 1, 2, 3, 8][random.within(0, 5)] {
        let one = reset(random.within(1, clocks));
        if !resets.contains(&one) {
            resets.push(one);
        }
    }
    resets
}

/// Any guards and resets, with constants up to a largest.
fn any(random: &mut Random, clocks: usize, length: usize, largest: usize) -> Vec<Vec<Vec<u8>>> {
    let most = if random.one_in(4) { 64 / length } else { 2 };
    (0..length)
        .map(|_| {
            let mut records = some_resets(random, clocks);
            for _ in 0..random.within(0, most) {
                let (clock, relation) = (random.within(1, clocks), random.within(0, 4) as u8);
                records.push(guard(clock, relation, random.within(0, largest)));
            }
            records
        })
        .collect()
}

/// A clock that makes each round last, and one that is not reset and runs out: finite counts of all sizes.
fn draining(random: &mut Random, clocks: usize, length: usize) -> Vec<Vec<Vec<u8>>> {
    let mut steps = vec![Vec::new(); length];
    let (slow, last) = (random.within(1, clocks), random.within(1, clocks));
    let (least, most) = (random.within(0, 9), random.within(0, 4000));
    let (lower, upper) = ([AT_LEAST, OVER], [AT_MOST, UNDER]);
    let (first, second) = (random.within(0, length - 1), random.within(0, length - 1));
    steps[first].push(guard(slow, lower[random.within(0, 1)], least));
    steps[first].push(reset(slow));
    steps[second].push(guard(last, upper[random.within(0, 1)], most));
    steps
}

/// Guards that a schedule of equal rounds meets; at times one is then made harder.
fn scheduled(random: &mut Random, clocks: usize, length: usize) -> Vec<Vec<Vec<u8>>> {
    let gaps: Vec<usize> = (0..length).map(|_| random.within(0, 40)).collect();
    let resets: Vec<_> = (0..length).map(|_| some_resets(random, clocks)).collect();
    // The reading of a clock at a step in the long run, if it is reset at all.
    let reading = |clock: usize, step: usize| {
        let mut time = 0;
        for back in 0..length {
            time += gaps[(step + length - back) % length];
            if resets[(step + 2 * length - back - 1) % length].contains(&reset(clock)) {
                return Some(time);
            }
        }
        None
    };
    let most = if random.one_in(3) {
        64 / length
    } else {
        3.min(64 / length)
    };
    let mut steps: Vec<Vec<Vec<u8>>> = resets.clone();
    for (step, records) in steps.iter_mut().enumerate() {
        for _ in 0..random.within(0, most) {
            let clock = random.within(1, clocks);
            let Some(time) = reading(clock, step) else {
                continue;
            };
            let slack = [0, 1, 5, 100][random.within(0, 3)];
            let harder = usize::from(random.one_in(60));
            records.push(match random.within(0, 4) {
                0 => guard(clock, UNDER, (time + 1 + slack).saturating_sub(harder)),
                1 => guard(clock, AT_MOST, (time + slack).saturating_sub(harder)),
                2 => guard(clock, EXACTLY, time + harder),
                3 => guard(clock, AT_LEAST, time.saturating_sub(slack) + harder),
                _ if time == 0 => guard(clock, AT_LEAST, harder),
                _ => guard(clock, OVER, time.saturating_sub(1 + slack) + harder),
            });
        }
    }
    steps
}

/// Bytes that are a legal table only by chance.
fn damaged(random: &mut Random) -> Vec<u8> {
    let mut bytes = legal(random);
    let place = random.within(0, bytes.len() - 1);
    match random.within(0, 10) {
        0 => {
            for _ in 0..random.within(1, 3) {
                let place = random.within(0, bytes.len() - 1);
                bytes[place] = random.next() as u8;
            }
        }
        1 => bytes[place] = random.within(0, 8) as u8,
        2 => bytes.truncate(place),
        3 => {
            let number = random.within(1, 9);
            bytes.extend(random.bytes(number, 7));
        }
        4 => {
            bytes.remove(place);
        }
        5 => bytes.insert(place, random.within(0, 7) as u8),
        6 => {
            let (number, most) = (random.within(0, 40), [6, 255][random.within(0, 1)]);
            bytes = random.bytes(number, most);
        }
        7 => {
            bytes = vec![1, random.within(0, 8) as u8];
            let number = random.within(0, 40);
            bytes.extend(random.bytes(number, 6));
        }
        8 => too_much(random, &mut bytes),
        9 => reset_again(random, &mut bytes),
        _ => long(random, &mut bytes),
    }
    bytes
}

/// Puts many steps or guards, perhaps too many, after the head, and then a guard that may have several faults.
fn too_much(random: &mut Random, bytes: &mut Vec<u8>) {
    let (few, many) = [(0, 3), (14, 18), (62, 66)][random.within(0, 2)];
    let number = random.within(few, many);
    let mut more = if random.one_in(3) {
        vec![4; number]
    } else {
        guard(1, AT_LEAST, random.within(3990, 4000)).repeat(number)
    };
    let (clock, relation) = (random.within(0, 8), random.within(0, 6) as u8);
    more.extend(guard(clock, relation, random.within(3995, 4005)));
    bytes.splice(2..2, more);
}

/// Puts resets, at times of a clock that the table does not have, before some records of a legal table: of a clock that the step
/// resets already, or only an earlier or a later one.
fn reset_again(random: &mut Random, bytes: &mut Vec<u8>) {
    let clocks = usize::from(bytes[1]);
    for _ in 0..random.within(1, 3) {
        let mut places = Vec::new();
        let mut at = 2;
        while at < bytes.len() {
            places.push(at);
            at += [1, 2, 5, 2, 1, 1][usize::from(bytes[at])];
        }
        let place = places[random.within(0, places.len() - 1)];
        let past = usize::from(random.one_in(5));
        let clock = random.within(1, clocks + past);
        bytes.splice(place..place, reset(clock));
    }
}

/// Puts resets after the head, up to the longest that is read, or one byte more or up to 5,000 bytes.
fn long(random: &mut Random, bytes: &mut Vec<u8>) {
    let length = [4095, 4096, 4097, random.within(4000, 5000)][random.within(0, 3)];
    bytes.splice(2..2, reset(1).repeat((length - bytes.len()) / 2));
    bytes.resize(length, random.within(0, 5) as u8);
}

// Questions.

/// What was compared.
struct Compare {
    random: Random,
    agreed: u64,
    differ: u64,
    seen: BTreeMap<String, u64>,
    longest_loop: usize,
    /// Seconds that were held to their fractions.
    seconds: u64,
    /// Scans that were given in trays: accepted, and turned away.
    in_trays: [u64; 2],
}

/// The rooms of a plan, and what was answered.
#[derive(Clone, PartialEq, Debug)]
struct Rooms {
    times: Vec<u64>,
    starts: Vec<u64>,
    room: Vec<u64>,
    answer: Vec<u64>,
}

impl Rooms {
    fn ask(&self, questions: &Questions, bytes: &[u8], k: u64) -> (bool, Rooms) {
        let mut r = self.clone();
        let told = (questions.plan)(
            bytes,
            k,
            &mut r.times,
            &mut r.starts,
            &mut r.room,
            &mut r.answer,
        );
        (told, r)
    }
}

/// The rooms of a panel, with the bits of the times, and what was answered.
#[derive(Clone, PartialEq, Debug)]
struct Panel {
    marks: Vec<u8>,
    times: Vec<u64>,
    answer: Vec<u64>,
}

impl Panel {
    fn ask(&self, side: &Side, bytes: &[u8], k: u64) -> (bool, Panel) {
        let mut p = self.clone();
        let mut times: Vec<f64> = p.times.iter().map(|&bits| f64::from_bits(bits)).collect();
        let told = (side.windows)(bytes, k, &mut p.marks, &mut times, &mut p.answer);
        p.times = times.into_iter().map(f64::to_bits).collect();
        (told, p)
    }
}

/// A widest window with the bits of its times.
fn bits_of((numbers, times): Widest) -> ([u64; 3], [u64; 2]) {
    (numbers, times.map(f64::to_bits))
}

/// Whether no binary64 number is nearer to the fraction m / (10 P) than this one, and this one is even if another is as near. All
/// in whole numbers: times a power of two and 10 P, a number, its neighbours and the fraction are whole, and below 2^70.
fn nearest(seconds: f64, moment: i64, parts: u64) -> bool {
    let bits = seconds.to_bits();
    if moment == 0 {
        return bits == 0;
    }
    // A fraction of 1 / 10,310 or more: far from the subnormal numbers, and from those at or above 2^30.
    if moment < 0 || !(1e-5..1e9).contains(&seconds) {
        return false;
    }
    let power = |bits: u64| (bits >> 52) as i32 - 1075;
    let scale = 1 - power(bits - 1).min(power(bits));
    let whole = |bits: u64| {
        let digits = i128::from(bits & ((1 << 52) - 1) | 1 << 52);
        (digits << (scale + power(bits))) * i128::from(10 * parts)
    };
    let away = |bits: u64| (whole(bits) - (i128::from(moment) << scale)).abs();
    [bits - 1, bits + 1]
        .into_iter()
        .all(|other| away(bits) < away(other) || away(bits) == away(other) && bits % 2 == 0)
}

/// The demands of k rounds, by plain Rust.
fn demands_of(bytes: &[u8], start: Start, k: u64) -> Vec<[i64; 4]> {
    let guards = plain::read(bytes).map_or(0, |c| c.steps + 2 * c.guards);
    let mut row = vec![0; 4 * (k as usize * guards + 2 * plain::CLOCKS)];
    let number = plain::demands(bytes, start, k, &mut row).unwrap_or(0);
    row.chunks_exact(4)
        .take(number)
        .map(|d| [d[0], d[1], d[2], d[3]])
        .collect()
}

/// Whether moments are a loop, by 01's definition.
fn is_loop(demands: &[[i64; 4]], moments: &[u64]) -> bool {
    let distinct = moments.iter().collect::<HashSet<_>>().len() == moments.len();
    let next = moments.iter().cycle().skip(1);
    let pairs = moments
        .iter()
        .zip(next)
        .map(|(&a, &b)| (a as i64, b as i64));
    // Per pair the smallest of (bound, not strict), which is the tightest demand.
    let mut tightest: HashMap<(i64, i64), Option<(i64, bool)>> = pairs.map(|p| (p, None)).collect();
    for &[from, to, bound, strict] in demands {
        if let Some(best) = tightest.get_mut(&(from, to)) {
            let here = (bound, strict == 0);
            *best = Some(best.map_or(here, |b| b.min(here)));
        }
    }
    let used: Option<Vec<(i64, bool)>> = tightest.into_values().collect();
    let Some(used) = used else {
        return false;
    };
    let sum: i64 = used.iter().map(|d| d.0).sum();
    let strict = used.iter().any(|d| !d.1);
    moments.len() >= 2 && distinct && (sum < 0 || sum == 0 && strict)
}

/// Whether moments and starts, in parts, meet all demands.
fn is_run(demands: &[[i64; 4]], parts: u64, times: &[u64], starts: &[u64]) -> bool {
    let time = |moment: i64| match moment as usize {
        0 => 0,
        i if i <= times.len() => times[i - 1] as i64,
        i => -(starts[i - times.len() - 1] as i64),
    };
    demands
        .iter()
        .all(|&[from, to, bound, strict]| time(to) - time(from) <= bound * parts as i64 - strict)
}

impl Compare {
    fn saw(&mut self, what: String) {
        *self.seen.entry(what).or_default() += 1;
    }

    /// Counts a comparison, and shows it where the sides differ.
    fn tell(
        &mut self,
        same: bool,
        bytes: &[u8],
        what: Arguments,
        proved: Arguments,
        plain: Arguments,
    ) {
        if same {
            self.agreed += 1;
            return;
        }
        self.differ += 1;
        if self.differ <= 10 {
            let hex: Vec<String> = bytes.iter().map(|b| format!("{b:02x}")).collect();
            println!("differ: {what}\n  table {}", hex.join(" "));
            for (side, answer) in [("proved", proved), ("plain ", plain)] {
                println!("  {side} {:.300}", answer.to_string());
            }
        }
    }

    fn saw_refusal(&mut self, question: &str, answer: &[u64]) {
        let number = answer[0];
        if number != 0 {
            self.saw(format!("refusal {number:2}"));
            self.saw(format!("{question}: refused"));
        }
    }

    /// A question that only fills an answer room, with one of some length.
    fn short_question(
        &mut self,
        name: &str,
        question: fn(&Side) -> Short,
        bytes: &[u8],
        len: usize,
    ) -> Vec<u64> {
        let room = self.random.room(len);
        let (mut a, mut b) = (room.clone(), room);
        let told = (
            question(&PROVED)(bytes, &mut a),
            question(&PLAIN)(bytes, &mut b),
        );
        let same = told.0 == told.1 && a == b;
        self.tell(
            same,
            bytes,
            format_args!("{name}, answer room {len}"),
            format_args!("{} {a:?}", told.0),
            format_args!("{} {b:?}", told.1),
        );
        if told.1 {
            self.saw_refusal(name, &b);
        } else {
            self.saw("answer room too short".into());
        }
        b
    }

    fn read(&mut self, bytes: &[u8], len: usize) {
        let answer = self.short_question("read", |side| side.read, bytes, len);
        if matches!(answer[..], [0, _, _, _, ..]) {
            self.saw("read answered".into());
        }
    }

    fn rounds(&mut self, bytes: &[u8], start: Start, len: usize) -> Vec<u64> {
        let name = format!("rounds {}", variant(start));
        let question: fn(&Side) -> Short = match start {
            Start::LogIn => |side| side.log_in.rounds,
            Start::MidShift => |side| side.mid_shift.rounds,
        };
        let answer = self.short_question(&name, question, bytes, len);
        match answer[..] {
            [0, 1, _, _, ..] => self.saw(format!("{name}: without end")),
            [0, 0, 0, _, ..] => self.saw(format!("{name}: 0")),
            [0, 0, 1..=99, _, ..] => self.saw(format!("{name}: 1 to 99")),
            [0, 0, _, _, ..] => self.saw(format!("{name}: 100 and more")),
            _ => {}
        }
        answer
    }

    /// Plan for k, with rooms of these lengths: times, starts, loop, answer.
    fn plan(&mut self, bytes: &[u8], start: Start, k: u64, lens: [usize; 4]) -> Rooms {
        let name = format!("plan {}", variant(start));
        let [times, starts, room, answer] = lens.map(|len| self.random.room(len));
        let before = Rooms {
            times,
            starts,
            room,
            answer,
        };
        let (told_a, a) = before.ask(PROVED.questions(start), bytes, k);
        let (told_b, b) = before.ask(PLAIN.questions(start), bytes, k);
        let answered = told_b && b.answer[0] == 0;
        let mut same = told_a == told_b;
        if !answered {
            same &= a == b;
        } else if b.answer[1] == 0 {
            let (n, total) = self.sizes(bytes, k);
            let demands = demands_of(bytes, start, k);
            same &= a == b && is_run(&demands, b.answer[2], &b.times[..total], &b.starts[..n]);
            self.saw(format!("{name}: found"));
        } else {
            let demands = demands_of(bytes, start, k);
            for r in [&a, &b] {
                let length = r.answer[2] as usize;
                same &= r.answer[..2] == [0, 1]
                    && r.answer[3..] == [&[0], &before.answer[4..]].concat();
                same &= length <= r.room.len() && r.room[length..] == before.room[length..];
                same &= r.times == before.times && r.starts == before.starts;
                same = same && is_loop(&demands, &r.room[..length]);
                self.longest_loop = self.longest_loop.max(length);
            }
            self.saw(format!("{name}: a loop"));
        }
        if told_b {
            self.saw_refusal(&name, &b.answer);
        }
        self.tell(
            same,
            bytes,
            format_args!("{name} for {k}, rooms {lens:?}"),
            format_args!("{told_a} {a:?}"),
            format_args!("{told_b} {b:?}"),
        );
        b
    }

    /// Demands for k, with a row and an answer room of these lengths.
    fn demands(&mut self, bytes: &[u8], start: Start, k: u64, len: usize, answer: usize) {
        let name = format!("demands {}", variant(start));
        let row: Vec<i64> = (0..len).map(|_| self.random.next() as i64).collect();
        let answer = self.random.room(answer);
        let (mut a, mut b) = ((row.clone(), answer.clone()), (row, answer));
        let told = (
            (PROVED.questions(start).demands)(bytes, k, &mut a.0, &mut a.1),
            (PLAIN.questions(start).demands)(bytes, k, &mut b.0, &mut b.1),
        );
        if told.1 {
            self.saw_refusal(&name, &b.1);
            if b.1[0] == 0 {
                self.saw(format!("{name}: answered"));
            }
        }
        let same = told.0 == told.1 && a == b;
        self.tell(
            same,
            bytes,
            format_args!("{name} for {k}, row {len}"),
            format_args!("{} {:?} {:?}", told.0, a.1, a.0),
            format_args!("{} {:?} {:?}", told.1, b.1, b.0),
        );
    }

    /// Windows for k, with rooms of these lengths: marks, times, answer.
    fn windows(&mut self, bytes: &[u8], k: u64, lens: [usize; 3]) -> Panel {
        let marks = (0..lens[0]).map(|_| self.random.next() as u8).collect();
        let [times, answer] = [lens[1], lens[2]].map(|len| self.random.room(len));
        let before = Panel {
            marks,
            times,
            answer,
        };
        let (told_a, a) = before.ask(&PROVED, bytes, k);
        let (told_b, b) = before.ask(&PLAIN, bytes, k);
        if told_b {
            self.saw_refusal("windows", &b.answer);
        }
        self.tell(
            told_a == told_b && a == b,
            bytes,
            format_args!("windows for {k}, rooms {lens:?}"),
            format_args!("{told_a} {a:?}"),
            format_args!("{told_b} {b:?}"),
        );
        a
    }

    fn widest(&mut self, bytes: &[u8], k: u64) -> Widest {
        let a = (PROVED.widest)(bytes, k);
        let b = (PLAIN.widest)(bytes, k);
        self.saw_refusal("widest", &b.0);
        self.tell(
            bits_of(a) == bits_of(b),
            bytes,
            format_args!("widest for {k}"),
            format_args!("{a:?}"),
            format_args!("{b:?}"),
        );
        a
    }

    /// Windows and widest for k, in rooms of all lengths that matter; and both held to the windows in parts.
    fn panel(&mut self, bytes: &[u8], k: u64) {
        let (_, total) = self.sizes(bytes, k);
        let legal = (1..=plain::TOTAL).contains(&total) && k <= plain::TOTAL as u64;
        let total = if legal { total } else { 7 };
        let more = self.random.within(1, 5);
        let short = self.random.within(0, 3);
        self.windows(bytes, k, [total + more, 2 * total + more, 4 + more]);
        self.windows(bytes, k, [total - 1, 2 * total + more, 4]);
        self.windows(bytes, k, [total, 2 * total - 1, 4]);
        self.windows(bytes, k, [0, 0, 4 + more]);
        self.windows(bytes, k, [total, 2 * total, short]);
        let shown = self.windows(bytes, k, [total, 2 * total, 4]);
        let widest = self.widest(bytes, k);
        if let Ok((parts, spans)) = plain::spans(bytes, k) {
            self.spans(bytes, k, parts, &spans);
            self.shown(bytes, k, parts, &spans, &shown, widest);
        }
    }

    /// The windows in parts are those of all demands, where these are not too many.
    fn spans(&mut self, bytes: &[u8], k: u64, parts: u64, spans: &[Window<i64>]) {
        let guards = plain::read(bytes).map_or(0, |c| c.guards);
        if k as usize * guards > 4000 && !self.random.one_in(8) {
            return;
        }
        let exact = windows::spans(bytes, k);
        let same = exact
            .as_ref()
            .is_ok_and(|(p, all)| (*p, &all[..]) == (parts, spans));
        self.saw("windows of all demands".into());
        self.tell(
            same,
            bytes,
            format_args!("windows in parts for {k}"),
            format_args!("all demands: {exact:?}"),
            format_args!("{spans:?}"),
        );
    }

    /// Marks and seconds are those of the windows in parts, each second the nearest to its fraction, and the widest is the first
    /// of the widest in parts.
    fn shown(
        &mut self,
        bytes: &[u8],
        k: u64,
        parts: u64,
        spans: &[Window<i64>],
        panel: &Panel,
        widest: Widest,
    ) {
        let mut same = panel.answer == [0, spans.len() as u64, 0, 0];
        let mut kinds = [0; 3];
        let mut best = (-1, [0; 2]);
        let rows = panel.marks.iter().zip(panel.times.chunks(2));
        for (span, (&mark, times)) in spans.iter().zip(rows) {
            let (kind, moments) = match *span {
                Window::Closed(first, last) => (2, [first, last]),
                Window::Open(first) => (1, [first, 0]),
                Window::Absent => (0, [0, 0]),
            };
            kinds[kind] += 1;
            if kind == 2 && moments[1] - moments[0] > best.0 {
                best = (moments[1] - moments[0], [times[0], times[1]]);
            }
            same &= usize::from(mark) == kind;
            for (&bits, moment) in times.iter().zip(moments) {
                same &= nearest(f64::from_bits(bits), moment, parts);
                self.seconds += 1;
            }
        }
        let mark = if best.0 < 0 { 0 } else { 2 };
        same &= bits_of(widest) == ([0, 0, mark], best.1);
        self.saw(format!(
            "windows: {}",
            match kinds {
                [0, 0, _] => "all closed",
                [0, _, 0] => "all open",
                [0, _, _] => "closed and open",
                _ => "absent",
            }
        ));
        self.saw(format!(
            "widest: {}",
            match best.0 {
                -1 => "none is closed",
                0 => "one moment",
                _ => "closed",
            }
        ));
        self.tell(
            same,
            bytes,
            format_args!("windows and widest for {k}, beside those in parts"),
            format_args!("{panel:?} {widest:?}"),
            format_args!("{parts} {spans:?}"),
        );
    }

    /// The clocks of a table and the steps of k rounds of it; 0 where there are none.
    fn sizes(&self, bytes: &[u8], k: u64) -> (usize, usize) {
        plain::read(bytes).map_or((0, 0), |c| (c.clocks, c.steps.wrapping_mul(k as usize)))
    }

    /// Plan and demands for k, in rooms of all lengths that matter.
    fn plan_and_demands(&mut self, bytes: &[u8], start: Start, k: u64) -> Rooms {
        let (n, total) = self.sizes(bytes, k);
        let legal = (1..=plain::TOTAL).contains(&total) && k <= plain::TOTAL as u64;
        let (times, room) = if legal {
            (total, total + n + 1)
        } else {
            (7, 9)
        };
        let more = self.random.within(1, 5);
        self.plan(
            bytes,
            start,
            k,
            [times + more, n + more, room + more, 4 + more],
        );
        self.plan(bytes, start, k, [times - 1, n, room, 4]);
        self.plan(bytes, start, k, [times, n.saturating_sub(1), room, 4]);
        self.plan(bytes, start, k, [times, n, room - 1, 4]);
        self.plan(bytes, start, k, [0, 0, 0, 4 + more]);
        let short = self.random.within(0, 3);
        self.plan(bytes, start, k, [times, n, room, short]);
        let places = if legal {
            4 * demands_of(bytes, start, k).len()
        } else {
            16
        };
        self.demands(bytes, start, k, places, 4);
        self.demands(bytes, start, k, places + more, 4 + more);
        self.demands(bytes, start, k, places.saturating_sub(1), 4);
        self.demands(bytes, start, k, 0, 4);
        self.demands(bytes, start, k, places, short);
        self.plan(bytes, start, k, [times, n, room, 4])
    }

    /// All questions about some bytes.
    fn all(&mut self, bytes: &[u8]) {
        for len in [0, 3, 4, 9] {
            self.read(bytes, len);
        }
        for start in STARTS {
            self.all_from(bytes, start);
        }
    }

    fn all_from(&mut self, bytes: &[u8], start: Start) {
        for len in [0, 3, 9] {
            self.rounds(bytes, start, len);
        }
        let rounds = self.rounds(bytes, start, 4);
        let steps = plain::read(bytes).map_or(1, |c| c.steps) as u64;
        let most = plain::TOTAL as u64 / steps;
        let small = self.random.within(1, 9) as u64;
        let mut ks = vec![
            0,
            1,
            2,
            small,
            most + 1,
            u64::MAX,
            (u64::MAX / steps).wrapping_add(2),
        ];
        if self.random.one_in(20) {
            ks.push(most);
        }
        if rounds[0] == 0 && rounds[1] == 0 && rounds[2] < most.min(100) {
            ks.extend([rounds[2], rounds[2] + 1]);
        }
        if start == Start::LogIn && self.random.one_in(4) {
            self.panel(bytes, most);
        }
        for k in ks {
            if start == Start::LogIn {
                self.panel(bytes, k);
            }
            let plan = self.plan_and_demands(bytes, start, k);
            if rounds[0] == 0 && plan.answer[0] == 0 {
                // A plan exists just where the count allows it.
                let allowed = rounds[1] == 1 || k <= rounds[2];
                let same = allowed == (plan.answer[1] == 0);
                let what = format_args!("rounds and plan {} for {k}", variant(start));
                self.tell(same, bytes, what, format_args!(""), format_args!(""));
            }
        }
    }
}

// Samples.

/// What is known of a sample in a variant: the rounds that it allows (None: without end), and of a plan k, P, the moments and the
/// starts.
type Known = (
    Option<u64>,
    Option<(u64, u64, &'static [u64], &'static [u64])>,
);

/// One of 01's samples.
struct Sample {
    name: &'static str,
    bytes: &'static [u8],
    log_in: Known,
    mid_shift: Known,
}

macro_rules! sample {
    ($name:literal, $log_in:expr, $mid_shift:expr) => {
        Sample {
            name: $name,
            bytes: include_bytes!(concat!("../samples/", $name, ".table")),
            log_in: $log_in,
            mid_shift: $mid_shift,
        }
    };
}

const SAMPLES: [Sample; 11] = [
    sample!(
        "S1",
        (None, Some((2, 4, &[12, 24], &[0]))),
        (None, Some((2, 4, &[0, 12], &[12])))
    ),
    sample!(
        "S2",
        (Some(1), Some((1, 4, &[12], &[0, 0]))),
        (Some(2), Some((2, 5, &[0, 15], &[15, 0])))
    ),
    sample!("S3", (Some(1), None), (Some(2), None)),
    sample!("S4", (Some(2), None), (Some(3), None)),
    sample!("S5", (Some(0), None), (Some(1), None)),
    sample!("S6", (Some(0), None), (Some(0), None)),
    sample!("S7", (Some(0), None), (Some(0), None)),
    sample!(
        "S8",
        (None, Some((3, 6, &[1, 2, 3], &[0, 0]))),
        (None, Some((3, 6, &[0, 1, 2], &[1, 0])))
    ),
    sample!(
        "S9",
        (None, Some((2, 4, &[8, 8], &[0]))),
        (None, Some((2, 4, &[0, 0], &[8])))
    ),
    sample!(
        "S10",
        (None, Some((2, 7, &[0, 21, 21, 42], &[0, 0]))),
        (None, Some((2, 7, &[0, 21, 21, 42], &[0, 0])))
    ),
    sample!("S11", (Some(4000), None), (Some(4001), None)),
];

/// Their cards.
const CARDS: [&str; 11] = [
    include_str!("../samples/S1.card"),
    include_str!("../samples/S2.card"),
    include_str!("../samples/S3.card"),
    include_str!("../samples/S4.card"),
    include_str!("../samples/S5.card"),
    include_str!("../samples/S6.card"),
    include_str!("../samples/S7.card"),
    include_str!("../samples/S8.card"),
    include_str!("../samples/S9.card"),
    include_str!("../samples/S10.card"),
    include_str!("../samples/S11.card"),
];

impl Compare {
    /// Both sides give the answer that is known.
    fn named(
        &mut self,
        bytes: &[u8],
        what: &str,
        expected: [u64; 4],
        ask: impl Fn(&Side, &mut [u64]) -> bool,
    ) {
        let (mut a, mut b) = ([9; 4], [9; 4]);
        let told = (ask(&PROVED, &mut a), ask(&PLAIN, &mut b));
        let same = told == (true, true) && a == expected && b == expected;
        self.tell(
            same,
            bytes,
            format_args!("{what}, known {expected:?}"),
            format_args!("{a:?}"),
            format_args!("{b:?}"),
        );
    }

    fn named_plan(&mut self, bytes: &[u8], start: Start, k: u64, expected: [u64; 4]) {
        let what = format!("plan {} for {k}", variant(start));
        self.named(bytes, &what, expected, |side, answer| {
            let (mut times, mut starts, mut room) = ([0; 1024], [0; 6], [0; 1031]);
            let plan = side.questions(start).plan;
            plan(bytes, k, &mut times, &mut starts, &mut room, answer)
        });
    }

    fn named_demands(&mut self, bytes: &[u8], start: Start, k: u64, number: usize) {
        for (len, expected) in [
            (4 * number, [0, number as u64, 0, 0]),
            (4 * number - 1, [15, 0, 0, 0]),
        ] {
            let what = format!("demands {} for {k}, row {len}", variant(start));
            self.named(bytes, &what, expected, |side, answer| {
                (side.questions(start).demands)(bytes, k, &mut vec![0; len], answer)
            });
        }
    }

    fn sample(&mut self, s: &Sample) {
        for (start, (rounds, plan)) in [(Start::LogIn, s.log_in), (Start::MidShift, s.mid_shift)] {
            let expected = rounds.map_or([0, 1, 0, 0], |count| [0, 0, count, 0]);
            let what = format!("{} {}", s.name, variant(start));
            self.named(s.bytes, &what, expected, |side, answer| {
                (side.questions(start).rounds)(s.bytes, answer)
            });
            if let Some((k, parts, times, starts)) = plan {
                self.named_plan(s.bytes, start, k, [0, 0, parts, 0]);
                let lens = [times.len(), starts.len(), parts as usize, 4];
                let r = self.plan(s.bytes, start, k, lens);
                let same = r.times == times && r.starts == starts;
                self.tell(
                    same,
                    s.bytes,
                    format_args!("{what}"),
                    format_args!(""),
                    format_args!("{r:?}"),
                );
            }
        }
        self.all(s.bytes);
    }

    /// The limits that 01 names, and tables at them.
    fn limits(&mut self) {
        let constant = |c| table(1, &[vec![guard(1, AT_MOST, c)]]);
        let clocks = |n| table(n, &[vec![]]);
        let long = |n| [vec![1, 1], reset(1).repeat(n), vec![4, 5]].concat();
        let guards = |n| table(1, &[vec![guard(1, AT_LEAST, 1); n]]);
        let steps = |n| table(1, &vec![vec![]; n]);
        let twice = |between: Vec<u8>| {
            let step = [reset(1), between, reset(1)].concat();
            table(2, &[vec![step]])
        };
        // The longest legal table, and with so many guards and resets more in its last step.
        let full = |guards: usize, resets: usize| {
            let step = |guards, resets| {
                let guards = vec![guard(6, AT_MOST, 4000); guards];
                let resets = (1..=6).chain(vec![6; resets]).map(reset).collect();
                [guards, resets].concat()
            };
            let mut all = vec![step(4, 0); 15];
            all.push(step(4 + guards, resets));
            table(6, &all)
        };
        assert_eq!(full(0, 0).len(), 531);
        let of_bytes = [
            (vec![], [2, 0, 0, 0]),
            (vec![1], [2, 0, 0, 0]),
            (constant(4000), [0, 1, 1, 1]),
            (constant(4001), [8, 2, 0, 0]),
            (clocks(6), [0, 6, 1, 0]),
            (clocks(0), [4, 0, 0, 0]),
            (clocks(7), [4, 0, 0, 0]),
            (long(2046), [16, 4, 0, 0]),
            (long(2047), [1, 4096, 0, 0]),
            (full(0, 0), [0, 6, 16, 64]),
            (full(1, 0), [5, 517, 0, 0]),
            (full(0, 1), [16, 529, 0, 0]),
            (twice(vec![]), [16, 4, 0, 0]),
            (twice(guard(1, UNDER, 1)), [16, 9, 0, 0]),
            (twice(vec![4]), [0, 2, 2, 0]),
            (twice(vec![4, 3, 2, 4]), [0, 2, 3, 0]),
            (twice(reset(2)), [16, 6, 0, 0]),
            (twice(reset(3)), [6, 4, 0, 0]),
            (guards(64), [0, 1, 1, 64]),
            (guards(65), [5, 322, 0, 0]),
            (steps(16), [0, 1, 16, 0]),
            (steps(17), [9, 18, 0, 0]),
        ];
        for (bytes, expected) in of_bytes {
            self.named(&bytes, "read", expected, |side, answer| {
                (side.read)(&bytes, answer)
            });
            self.all(&bytes);
        }
        let (s1, s2, s11) = (SAMPLES[0].bytes, SAMPLES[1].bytes, SAMPLES[10].bytes);
        self.named_plan(s2, Start::LogIn, 2, [0, 1, 5, 0]);
        self.named_plan(s2, Start::MidShift, 3, [0, 1, 5, 0]);
        let crowded = table(6, &[vec![guard(6, EXACTLY, 3); 64]]);
        self.named_demands(&crowded, Start::LogIn, 1024, 132_108);
        self.named_demands(&crowded, Start::MidShift, 1024, 132_102);
        for start in STARTS {
            self.named_plan(s11, start, 4001, [11, 0, 0, 0]);
            self.named_plan(s1, start, 1024, [0, 0, 1026, 0]);
            self.named_plan(s1, start, 1025, [11, 0, 0, 0]);
        }
    }
}

// Windows that are known.

impl Compare {
    /// Both sides give the windows that are known, in parts, and the widest, by its step.
    fn named_windows(
        &mut self,
        bytes: &[u8],
        k: u64,
        parts: u64,
        spans: &[Window<i64>],
        widest: Option<usize>,
    ) {
        let seconds = |moment: i64| (moment as f64 / (10 * parts) as f64).to_bits();
        let rows = spans.iter().map(|span| match *span {
            Window::Closed(first, last) => (2, [seconds(first), seconds(last)]),
            Window::Open(first) => (1, [seconds(first), 0]),
            Window::Absent => (0, [0, 0]),
        });
        let (marks, times): (Vec<u8>, Vec<[u64; 2]>) = rows.unzip();
        let mark = if widest.is_none() { 0 } else { 2 };
        let widest = ([0, 0, mark], widest.map_or([0; 2], |i| times[i]));
        let before = Panel {
            marks: vec![9; spans.len()],
            times: vec![9; 2 * spans.len()],
            answer: vec![9; 4],
        };
        let known = Panel {
            marks,
            times: times.concat(),
            answer: vec![0, spans.len() as u64, 0, 0],
        };
        let told = [PROVED, PLAIN].map(|side| {
            let widest = bits_of((side.widest)(bytes, k));
            (before.ask(&side, bytes, k), widest)
        });
        let same = told.iter().all(|t| *t == ((true, known.clone()), widest));
        self.tell(
            same,
            bytes,
            format_args!("windows for {k}, known {known:?} {widest:?}"),
            format_args!("{:?}", told[0]),
            format_args!("{:?}", told[1]),
        );
    }

    fn windows_known(&mut self) {
        use Window::{Absent, Closed, Open};
        let [s1, s2, s6, s8, s9, s10] = [0, 1, 5, 7, 8, 9].map(|i| SAMPLES[i].bytes);
        self.named_windows(s1, 1, 3, &[Open(9)], None);
        self.named_windows(s1, 2, 4, &[Open(12), Open(24)], None);
        self.named_windows(s2, 1, 4, &[Closed(12, 20)], Some(0));
        self.named_windows(s2, 2, 5, &[Absent; 2], None);
        self.named_windows(s6, 1, 3, &[Absent], None);
        let three = [Closed(1, 3), Closed(2, 4), Closed(3, 5)];
        self.named_windows(s8, 3, 6, &three, Some(0));
        self.named_windows(s9, 2, 4, &[Closed(8, 8); 2], Some(0));
        let open = [Closed(0, 14), Open(21), Open(21), Open(42)];
        self.named_windows(s10, 2, 7, &open, Some(0));
        let under = table(1, &[vec![guard(1, UNDER, 1)]]);
        self.named_windows(&under, 1, 3, &[Closed(0, 2)], Some(0));
        let second = table(1, &[vec![], vec![guard(1, AT_MOST, 5)]]);
        self.named_windows(&second, 1, 4, &[Closed(0, 20); 2], Some(0));
        let after = table(1, &[vec![reset(1)], vec![guard(1, AT_MOST, 5)]]);
        self.named_windows(&after, 1, 4, &[Open(0); 2], None);
        // The second would be the wider by its seconds.
        let equal = table(
            2,
            &[
                vec![guard(2, UNDER, 1), reset(1)],
                vec![guard(1, EXACTLY, 7), reset(1)],
            ],
        );
        self.named_windows(&equal, 1, 5, &[Closed(0, 4), Closed(35, 39)], Some(0));
    }

    /// Moments of all sizes in every number of parts: where each round is over c and under c + 1 ticks, the last step of round i
    /// is at i (c P + 1) parts at the earliest and at i ((c + 1) P - 1) at the latest.
    fn seconds_known(&mut self) {
        let of_rounds = (1..=1024).map(|k| (k, 1 + k % 6, 1));
        let of_clocks = (1..=6).flat_map(|n| [(1, n, 1), (340, n, 3), (1024, n, 1), (64, n, 16)]);
        for (k, clocks, length) in of_rounds.chain(of_clocks) {
            let largest = [3, 40, 3999][self.random.within(0, 2)];
            let c = self.random.within(0, largest);
            let mut steps = vec![vec![]; length];
            steps[length - 1] = vec![guard(1, OVER, c), guard(1, UNDER, c + 1), reset(1)];
            let bytes = table(clocks, &steps);
            let total = k * length;
            let parts = (total + clocks + 1) as u64;
            let least = c as i64 * parts as i64 + 1;
            let most = least + parts as i64 - 2;
            // A step before the last of its round is not before the round, nor after its last step.
            let spans: Vec<_> = (0..total)
                .map(|i| ((i + 1) / length, i / length + 1))
                .map(|(done, begun)| Window::Closed(done as i64 * least, begun as i64 * most))
                .collect();
            let wide = |span: &Window<i64>| match *span {
                Window::Closed(first, last) => last - first,
                _ => 0,
            };
            let widest = (0..total).rev().max_by_key(|&i| wide(&spans[i]));
            self.named_windows(&bytes, k as u64, parts, &spans, widest);
            let shown = self.windows(&bytes, k as u64, [total, 2 * total, 4]);
            let widest = self.widest(&bytes, k as u64);
            self.shown(&bytes, k as u64, parts, &spans, &shown, widest);
        }
    }
}

// Scans.

/// A running record: the next step, six readings and a counter.
type Record = [u16; 8];

/// A record with these readings, and 0 for the other clocks.
fn record(step: usize, readings: &[u16], counter: u16) -> Record {
    let mut record = [0; 8];
    record[0] = step as u16;
    record[1..=readings.len()].copy_from_slice(readings);
    record[7] = counter;
    record
}

/// How many places before and after a lent room are looked at too.
const AROUND: usize = 3;

/// The part of a room that is lent.
fn lent<T>(room: &mut [T]) -> &mut [T] {
    let end = room.len() - AROUND;
    &mut room[AROUND..end]
}

/// The rooms of a scan, with places around them.
#[derive(Clone, PartialEq, Debug)]
struct Scan {
    running: Vec<u16>,
    answer: Vec<u64>,
}

impl Scan {
    fn ask(&self, side: &Side, bytes: &[u8], counter: u16) -> (bool, Scan) {
        let mut s = self.clone();
        let told = (side.scan)(bytes, counter, lent(&mut s.running), lent(&mut s.answer));
        (told, s)
    }
}

/// What is known of a scan: the record after it, the guard that turns it away, or the number and the place of a refusal.
#[derive(Clone, Copy)]
enum Judged {
    Accepted(Record),
    TurnedAway(u64),
    Refused(u64, u64),
}

impl Compare {
    /// Rooms of these lengths, running and answer, with places around them. The first places of the one hold a record, as far as
    /// they go; all others any numbers.
    fn scan_rooms(&mut self, record: Record, [running, answer]: [usize; 2]) -> Scan {
        let mut running = self.random.row(running + 2 * AROUND);
        for (place, number) in lent(&mut running).iter_mut().zip(record) {
            *place = number;
        }
        let answer = self.random.room(answer + 2 * AROUND);
        Scan { running, answer }
    }

    /// Log-in with a room of some length.
    fn log_in(&mut self, counter: u16, len: usize) {
        let room = self.scan_rooms([7; 8], [len, 0]).running;
        let (mut a, mut b) = (room.clone(), room.clone());
        let told = (
            (PROVED.begin)(counter, lent(&mut a)),
            (PLAIN.begin)(counter, lent(&mut b)),
        );
        let mut known = room;
        if len >= 8 {
            lent(&mut known)[..8].copy_from_slice(&record(1, &[], counter));
            self.saw("log-in: answered".into());
        } else {
            self.saw("log-in: room too short".into());
        }
        self.tell(
            told == (len >= 8, len >= 8) && a == known && b == known,
            &[],
            format_args!("log-in at {counter}, room {len}"),
            format_args!("{} {a:?}", told.0),
            format_args!("{} {b:?}", told.1),
        );
    }

    /// A scan at a counter, with rooms of these lengths, running and answer; the record after it, where there is room for it.
    fn scan(&mut self, bytes: &[u8], record: Record, counter: u16, lens: [usize; 2]) -> Record {
        let before = self.scan_rooms(record, lens);
        let (told_a, a) = before.ask(&PROVED, bytes, counter);
        let (told_b, mut b) = before.ask(&PLAIN, bytes, counter);
        let roomy = lens[0] >= 8 && lens[1] >= 4;
        self.tell(
            (told_a, told_b) == (roomy, roomy) && a == b && (roomy || b == before),
            bytes,
            format_args!("scan at {counter} of {record:?}, rooms {lens:?}"),
            format_args!("{told_a} {a:?}"),
            format_args!("{told_b} {b:?}"),
        );
        if !roomy {
            self.saw("scan: a room too short".into());
            return record;
        }
        let answer = &lent(&mut b.answer)[..4];
        match answer {
            [0, 0, ..] => self.saw("scan: accepted".into()),
            [0, ..] => self.saw("scan: turned away".into()),
            _ => self.saw_refusal("scan", answer),
        }
        std::array::from_fn(|i| lent(&mut b.running)[i])
    }

    /// Both sides judge a scan as is known; the record after it.
    fn named_scan(&mut self, bytes: &[u8], record: Record, counter: u16, known: Judged) -> Record {
        let (answer, after) = match known {
            Judged::Accepted(after) => ([0; 4], after),
            Judged::TurnedAway(guard) => ([0, guard, 0, 0], record),
            Judged::Refused(number, place) => ([number, place, 0, 0], record),
        };
        let before = self.scan_rooms(record, [8, 4]);
        let mut expected = before.clone();
        lent(&mut expected.running).copy_from_slice(&after);
        lent(&mut expected.answer).copy_from_slice(&answer);
        let told = [PROVED, PLAIN].map(|side| before.ask(&side, bytes, counter));
        self.tell(
            told.iter().all(|t| *t == (true, expected.clone())),
            bytes,
            format_args!("scan at {counter} of {record:?}, known {answer:?} {after:?}"),
            format_args!("{:?}", told[0]),
            format_args!("{:?}", told[1]),
        );
        let verdict = [answer[1] as u16];
        let as_tray = match known {
            Judged::Refused(number, place) => Trayed::Refused(number, place),
            _ => Trayed::Judged(&verdict, after),
        };
        self.named_tray(bytes, record, &[counter], 1, as_tray);
        after
    }

    /// Log-in at a counter, and then scans that are known, given singly and in two trays, cut at each place.
    fn named_shift(&mut self, bytes: &[u8], first: u16, scans: &[(u16, Judged)]) {
        self.log_in(first, 8);
        let mut records = vec![record(1, &[], first)];
        let (mut counters, mut verdicts) = (Vec::new(), Vec::new());
        for (i, &(counter, known)) in scans.iter().enumerate() {
            records.push(self.named_scan(bytes, records[i], counter, known));
            counters.push(counter);
            verdicts.push(match known {
                Judged::TurnedAway(guard) => guard as u16,
                _ => 0,
            });
        }
        let end = scans.len();
        for cut in 0..=end {
            for (from, to) in [(0, cut), (cut, end)] {
                let known = Trayed::Judged(&verdicts[from..to], records[to]);
                let more = self.random.within(0, 2);
                self.named_tray(
                    bytes,
                    records[from],
                    &counters[from..to],
                    to - from + more,
                    known,
                );
            }
        }
    }

    /// The samples from log-in, in whole ticks.
    fn scans_of_samples(&mut self) {
        use Judged::{Accepted, TurnedAway};
        let one = |readings: &[u16], counter| Accepted(record(1, readings, counter));
        let known: [&[(u16, Judged)]; 11] = [
            // A scan turned away leaves the counter, and guards are tested before the resets.
            &[
                (2, TurnedAway(1)),
                (4, one(&[0], 4)),
                (6, TurnedAway(1)),
                (7, one(&[0], 7)),
            ],
            &[
                (2, TurnedAway(1)),
                (3, one(&[0, 3], 3)),
                (5, TurnedAway(1)),
                (6, TurnedAway(2)),
            ],
            &[
                (2, TurnedAway(1)),
                (3, one(&[0, 3], 3)),
                (5, TurnedAway(1)),
                (6, TurnedAway(2)),
            ],
            &[
                (3, one(&[0, 3], 3)),
                (6, one(&[0, 6], 6)),
                (8, TurnedAway(1)),
                (9, TurnedAway(2)),
            ],
            &[(0, TurnedAway(1)), (1, TurnedAway(2))],
            &[
                (0, TurnedAway(1)),
                (1, TurnedAway(1)),
                (65535, TurnedAway(1)),
            ],
            &[(0, TurnedAway(2)), (1, TurnedAway(1))],
            // Without end in parts of a tick, but not in whole ones.
            &[(0, TurnedAway(1)), (1, TurnedAway(2))],
            &[
                (1, TurnedAway(1)),
                (2, one(&[2], 2)),
                (2, one(&[2], 2)),
                (3, TurnedAway(1)),
            ],
            &[
                (0, Accepted(record(2, &[0, 0], 0))),
                (2, TurnedAway(1)),
                (3, one(&[0, 3], 3)),
                (5, Accepted(record(2, &[2, 0], 5))),
                (7, TurnedAway(1)),
                (8, one(&[0, 3], 8)),
                (11, TurnedAway(1)),
            ],
            &[
                (0, TurnedAway(1)),
                (1, one(&[0, 1], 1)),
                (4000, one(&[0, 4000], 4000)),
                (4001, TurnedAway(2)),
                (65535, TurnedAway(2)),
            ],
        ];
        for (s, scans) in SAMPLES.iter().zip(known) {
            self.named_shift(s.bytes, 0, scans);
            // The same from another counter.
            let first = self.random.next() as u16;
            let moved = |&(counter, judged): &(u16, Judged)| {
                let judged = match judged {
                    Accepted(mut after) => {
                        after[7] = after[7].wrapping_add(first);
                        Accepted(after)
                    }
                    judged => judged,
                };
                (first.wrapping_add(counter), judged)
            };
            let scans: Vec<_> = scans.iter().map(moved).collect();
            self.named_shift(s.bytes, first, &scans);
            for _ in 0..40 {
                self.shift(s.bytes, 40);
                self.shift_in_trays(s.bytes, 5);
            }
        }
    }

    /// Scans at which a judge goes wrong easily.
    fn scans_known(&mut self) {
        use Judged::{Accepted, TurnedAway};
        let s1 = SAMPLES[0].bytes;
        let of_one = |records: &[Vec<u8>]| table(1, &[records.to_vec()]);
        let one = |readings: &[u16], counter| Accepted(record(1, readings, counter));
        // The counter starts again after 65,535.
        self.named_shift(s1, 65535, &[(1, TurnedAway(1)), (2, one(&[0], 2))]);
        let two = of_one(&[guard(1, EXACTLY, 2)]);
        self.named_shift(&two, 65535, &[(0, TurnedAway(1)), (1, one(&[2], 1))]);
        self.named_shift(&two, 65533, &[(65535, one(&[2], 65535))]);
        // No ticks, one, and as many as there can be.
        let free = of_one(&[]);
        self.named_shift(&free, 7, &[(7, one(&[0], 7)), (8, one(&[1], 8))]);
        self.named_shift(&free, 7, &[(6, one(&[4001], 6)), (6, one(&[4001], 6))]);
        self.named_shift(s1, 0, &[(65535, one(&[0], 65535)), (65535, TurnedAway(1))]);
        // A reading is held at 4,001, and not before, and let go by a reset.
        let mut running = record(1, &[3998], 65534);
        for (counter, reading) in [(65535, 3999), (0, 4000), (1, 4001), (2, 4001), (5000, 4001)] {
            running = self.named_scan(&free, running, counter, one(&[reading], counter));
        }
        self.named_scan(&free, record(1, &[3999], 0), 3, one(&[4001], 3));
        self.named_scan(&free, record(1, &[2], 0), 3998, one(&[4000], 3998));
        self.named_scan(s1, record(1, &[4001], 10), 11, one(&[0], 11));
        let long = of_one(&[guard(1, OVER, 4000)]);
        self.named_shift(
            &long,
            0,
            &[(4000, TurnedAway(1)), (4001, one(&[4001], 4001))],
        );
        self.named_shift(
            &long,
            0,
            &[(5000, one(&[4001], 5000)), (5001, one(&[4001], 5001))],
        );
        // 4,001 and 65,535 is 4,000 in 16 bits.
        let short = of_one(&[guard(1, AT_MOST, 4000)]);
        self.named_scan(&short, record(1, &[4001], 1), 0, TurnedAway(1));
        self.named_scan(&short, record(1, &[1], 1), 0, TurnedAway(1));
        self.named_scan(&short, record(1, &[3999], 1), 2, one(&[4000], 2));
        // A guard's number is that in its step, resets not counted.
        let second = vec![reset(1), guard(2, AT_MOST, 0), guard(1, AT_MOST, 0)];
        let in_step = table(2, &[vec![guard(1, AT_LEAST, 0)], second]);
        let begun = Accepted(record(2, &[0, 0], 0));
        self.named_shift(&in_step, 0, &[(0, begun), (1, TurnedAway(1))]);
        self.named_scan(&in_step, record(2, &[1, 0], 0), 0, TurnedAway(2));
        self.named_scan(&in_step, record(2, &[0, 0], 0), 0, one(&[0, 0], 0));
        // Exactly is one guard.
        let exact = of_one(&[
            guard(1, AT_LEAST, 0),
            guard(1, EXACTLY, 5),
            guard(1, AT_MOST, 9),
        ]);
        self.named_shift(&exact, 0, &[(12, TurnedAway(2))]);
        self.named_shift(&exact, 0, &[(4, TurnedAway(2)), (5, one(&[5], 5))]);
        let after_exact = table(2, &[vec![guard(1, EXACTLY, 4), guard(2, AT_MOST, 3)]]);
        self.named_shift(&after_exact, 0, &[(4, TurnedAway(2))]);
        // The last of 64 guards.
        let mut crowd = vec![guard(1, AT_MOST, 9); 63];
        crowd.push(guard(1, AT_MOST, 8));
        let crowd = of_one(&crowd);
        self.named_shift(
            &crowd,
            0,
            &[(8, one(&[8], 8)), (9, TurnedAway(64)), (10, TurnedAway(1))],
        );
        // Each clock has its own reading, and a step resets its own clocks.
        let apart = table(
            3,
            &[vec![reset(2)], vec![guard(2, EXACTLY, 4), reset(3)], vec![]],
        );
        let scans = [
            (10, Accepted(record(2, &[10, 0, 10], 10))),
            (13, TurnedAway(1)),
            (14, Accepted(record(3, &[14, 4, 0], 14))),
            (20, one(&[20, 10, 6], 20)),
        ];
        self.named_shift(&apart, 0, &scans);
        // All clocks in one.
        let all: Vec<_> = (1..=6).map(|j| guard(j, EXACTLY, 10 * j)).collect();
        let all = table(6, &[all]);
        for late in 1..=6 {
            let mut readings: [u16; 6] = std::array::from_fn(|j| 10 * (j as u16 + 1) - 3);
            let after = readings.map(|reading| reading + 3);
            self.named_scan(&all, record(1, &readings, 0), 3, one(&after, 3));
            readings[late - 1] += 1;
            self.named_scan(&all, record(1, &readings, 0), 3, TurnedAway(late as u64));
        }
    }

    /// Each relation at its edge: of constants up to the largest, at the reading before, at and after it, come to in several ways.
    fn relations_known(&mut self) {
        let relations = [
            (UNDER, [true, false, false]),
            (AT_MOST, [true, true, false]),
            (EXACTLY, [false, true, false]),
            (AT_LEAST, [false, true, true]),
            (OVER, [false, false, true]),
        ];
        for (relation, held) in relations {
            for constant in [0, 1, 2, 255, 256, 257, 3998, 3999, 4000] {
                let bytes = table(1, &[vec![guard(1, relation, constant)]]);
                for (i, holds) in held.into_iter().enumerate() {
                    let Some(reading) = (constant + i).checked_sub(1) else {
                        continue;
                    };
                    let reading = reading as u16;
                    for passed in [0, 1, reading / 2, reading] {
                        let (first, passed) = (self.random.next() as u16, passed.min(reading));
                        let before = record(1, &[reading - passed], first);
                        let counter = first.wrapping_add(passed);
                        let known = match holds {
                            true => Judged::Accepted(record(1, &[reading], counter)),
                            false => Judged::TurnedAway(1),
                        };
                        self.named_scan(&bytes, before, counter, known);
                    }
                }
            }
        }
    }

    /// Sixteen steps gone round twice: step i is exactly i ticks after the one before. Each scan also a tick early, and turned away.
    fn rounds_known(&mut self) {
        let steps: Vec<_> = (1..=16)
            .map(|i| vec![guard(1, EXACTLY, i), reset(1)])
            .collect();
        let bytes = table(1, &steps);
        let first = 65400;
        let mut counter: u16 = first;
        let mut scans = Vec::new();
        for i in (1..=16).chain(1..=16) {
            counter = counter.wrapping_add(i);
            let next = usize::from(i) % 16 + 1;
            scans.push((counter.wrapping_sub(1), Judged::TurnedAway(1)));
            scans.push((counter, Judged::Accepted(record(next, &[0], counter))));
        }
        self.named_shift(&bytes, first, &scans);
    }

    /// Records that a table cannot go on from, and those that it can just go on from.
    fn records_known(&mut self) {
        use Judged::{Accepted, Refused};
        for steps in 1..=16 {
            let bytes = table(2, &vec![vec![]; steps]);
            for step in [0, steps + 1, 17, 256, 257, 65535] {
                if step != 0 && step <= steps {
                    continue;
                }
                self.named_scan(&bytes, record(step, &[1, 2], 3), 4, Refused(17, 0));
            }
            for step in 1..=steps {
                let after = record(step % steps + 1, &[2, 3], 4);
                self.named_scan(&bytes, record(step, &[1, 2], 3), 4, Accepted(after));
            }
        }
        for clocks in 1..=6 {
            let resets = (1..=clocks).map(reset).collect();
            for (bytes, reset) in [
                (table(clocks, &[vec![]]), false),
                (table(clocks, &[resets]), true),
            ] {
                for clock in 1..=6 {
                    for reading in [4000, 4001, 4002, 9999, 65534, 65535] {
                        let mut before = record(1, &[11, 12, 13, 14, 15, 16], 3);
                        before[clock] = reading;
                        // Readings past n are kept, and those of the table's clocks are a tick later.
                        let mut after = before;
                        for place in &mut after[1..=clocks] {
                            *place = if reset {
                                0
                            } else {
                                place.saturating_add(1).min(4001)
                            };
                        }
                        after[7] = 4;
                        let fits = clock > clocks || reading <= 4001;
                        let known = if fits {
                            Accepted(after)
                        } else {
                            Refused(17, 0)
                        };
                        self.named_scan(&bytes, before, 4, known);
                    }
                }
            }
        }
        // Whatever a record's last counter is.
        let bytes = table(1, &[vec![]]);
        for counter in [0, 1, 4002, 65535] {
            let before = record(1, &[0], counter);
            self.named_scan(&bytes, before, counter, Accepted(before));
            let before = record(1, &[4002], counter);
            self.named_scan(&bytes, before, counter, Refused(17, 0));
        }
        // The second reading is of no clock.
        let before = [1, 0, 9999, 65535, 4002, 0, 1, 0];
        let after = [1, 0, 9999, 65535, 4002, 0, 1, 5];
        self.named_scan(SAMPLES[0].bytes, before, 5, Accepted(after));
    }

    /// The table's faults, which come before the record's.
    fn faults_known(&mut self) {
        let step = |records: &[Vec<u8>]| table(2, &[records.to_vec()]);
        let too_long = [step(&[]), vec![5; 4096]].concat();
        let faults = [
            (too_long, 1, 4096),
            (vec![], 2, 0),
            (vec![1], 2, 0),
            (vec![1, 1, 2, 1, 3, 3], 2, 2),
            (vec![1, 1, 4], 2, 3),
            (vec![1, 1, 6], 3, 2),
            (vec![4, 5], 4, 0),
            (vec![1, 7, 4, 5], 4, 0),
            (vec![1, 1, 1, 1, 4, 5], 4, 2),
            (step(&vec![guard(1, AT_MOST, 1); 65]), 5, 322),
            (step(&[guard(3, AT_MOST, 1)]), 6, 2),
            (step(&[reset(1), reset(1)]), 16, 4),
            (step(&[guard(1, 5, 1)]), 7, 2),
            (step(&[guard(1, AT_MOST, 4001)]), 8, 2),
            (table(1, &vec![vec![]; 17]), 9, 18),
            (vec![1, 1, 5], 9, 2),
            (vec![1, 1, 4, 5, 5], 10, 4),
        ];
        for (bytes, number, place) in faults {
            let refused = Judged::Refused(number, place);
            for running in [
                record(1, &[0], 0),
                record(0, &[0], 0),
                record(17, &[0], 9),
                record(1, &[4002; 6], 9),
                record(65535, &[65535; 6], 65535),
            ] {
                self.named_scan(&bytes, running, 9, refused);
                let refused = Trayed::Refused(number, place);
                self.named_tray(&bytes, running, &[], 0, refused);
                self.named_tray(&bytes, running, &[9; 2], 1, refused);
                self.named_tray(&bytes, running, &[9; 257], 256, refused);
                for lens in [[7, 4], [8, 3], [0, 0]] {
                    self.scan(&bytes, running, 9, lens);
                }
            }
        }
    }

    /// Rooms of all lengths that matter: of a scan that is accepted, turned away and refused, and of log-in.
    fn scan_rooms_known(&mut self) {
        let s1 = SAMPLES[0].bytes;
        for running in 0..=12 {
            for answer in 0..=7 {
                for (step, counter) in [(1, 3), (1, 2), (2, 3)] {
                    self.scan(s1, record(step, &[0], 0), counter, [running, answer]);
                }
            }
            for counter in [0, 1, 4001, 65535] {
                self.log_in(counter, running);
            }
        }
    }

    /// A shift: log-in and so many scans, at counters where a guard of the next step begins to hold or ends, and at some others.
    fn shift(&mut self, bytes: &[u8], scans: usize) {
        let Ok(table) = plain::Table::parse(bytes) else {
            return;
        };
        let first = match self.random.within(0, 2) {
            0 => 0,
            1 => self.random.within(65000, 65535) as u16,
            _ => self.random.next() as u16,
        };
        self.log_in(first, 8);
        let mut running = record(1, &[], first);
        for _ in 0..scans {
            let counter = self.counter(&table, bytes, running);
            let lens = match self.random.within(0, 9) {
                0 => [self.random.within(0, 12), self.random.within(0, 7)],
                _ => [8, 4],
            };
            running = self.scan(bytes, running, counter, lens);
        }
    }

    /// A counter for a scan that matters, mostly for one that is accepted if there is one.
    fn counter(&mut self, table: &plain::Table, bytes: &[u8], running: Record) -> u16 {
        let step = usize::from(running[0] - 1);
        let mut passed = vec![0, 1, 65535, self.random.within(0, 50) as u16];
        passed.push(self.random.next() as u16);
        for guard in table.guards_of(step) {
            let reading = running[usize::from(guard.clock)];
            let to = |constant: u16| constant.checked_sub(reading);
            passed.extend(to(guard.constant + 1));
            passed.extend(to(guard.constant));
            passed.extend(to(guard.constant).and_then(|ticks| ticks.checked_sub(1)));
        }
        let turn = self.random.within(0, passed.len() - 1);
        passed.rotate_left(turn);
        let counters = passed.iter().map(|ticks| running[7].wrapping_add(*ticks));
        let accepted = |counter: &u16| {
            let (mut running, mut answer) = (running, [9; 4]);
            scans::entries::scan(bytes, *counter, &mut running, &mut answer) && answer == [0; 4]
        };
        let any = self.random.one_in(3);
        let found = counters.clone().find(|counter| any || accepted(counter));
        found.unwrap_or(running[7].wrapping_add(passed[0]))
    }

    /// Any record for a table's bytes.
    fn any_record(&mut self, bytes: &[u8]) -> Record {
        let steps = plain::read(bytes).map_or(3, |c| c.steps);
        let step = match self.random.within(0, 9) {
            0 => [0, steps + 1, 65535, self.random.within(0, 65535)][self.random.within(0, 3)],
            _ => self.random.within(1, steps),
        };
        let unfit = self.random.one_in(8);
        let readings: [u16; 6] = std::array::from_fn(|_| match self.random.within(0, 4) {
            0 => self.random.within(0, 4001) as u16,
            1 => self.random.within(3998, 4001) as u16,
            2 if unfit => [4002, 65535, self.random.next() as u16][self.random.within(0, 2)],
            _ => self.random.within(0, 50) as u16,
        });
        record(step, &readings, self.random.next() as u16)
    }

    /// Ticks that may pass before a scan.
    fn any_ticks(&mut self) -> u16 {
        match self.random.within(0, 3) {
            0 => self.random.next() as u16,
            1 => self.random.within(3990, 4010) as u16,
            _ => self.random.within(0, 50) as u16,
        }
    }

    /// Any record with a table's bytes, at any counter.
    fn any_scan(&mut self, bytes: &[u8]) {
        let running = self.any_record(bytes);
        let counter = running[7].wrapping_add(self.any_ticks());
        let more = self.random.within(0, 3);
        self.scan(bytes, running, counter, [8 + more, 4 + more]);
    }
}

// Trays.

/// The rooms of a tray, with places around them.
#[derive(Clone, PartialEq, Debug)]
struct Tray {
    answer: Vec<u64>,
    running: Vec<u16>,
    verdicts: Vec<u16>,
}

impl Tray {
    fn ask(&self, side: &Side, bytes: &[u8], counters: &[u16]) -> (bool, Tray) {
        let mut t = self.clone();
        let told = (side.tray)(
            bytes,
            counters,
            lent(&mut t.running),
            lent(&mut t.verdicts),
            lent(&mut t.answer),
        );
        (told, t)
    }

    /// What a tray comes to by its scans given singly, where there is room for the record and the answer.
    fn singly(&self, side: &Side, bytes: &[u8], counters: &[u16]) -> Tray {
        let mut t = self.clone();
        let (running, verdicts) = (lent(&mut t.running), lent(&mut t.verdicts));
        let mut answer = [9; 4];
        // What the table or the record is refused with. The scan is not kept.
        (side.scan)(bytes, 0, &mut running.to_vec(), &mut answer);
        if answer[0] == 0 {
            answer = if counters.len() > 256 {
                [18, 0, 0, 0]
            } else if counters.len() > verdicts.len() {
                [19, 0, 0, 0]
            } else {
                let mut accepted = 0;
                for (&counter, verdict) in counters.iter().zip(verdicts) {
                    (side.scan)(bytes, counter, running, &mut answer);
                    accepted += u64::from(answer == [0; 4]);
                    *verdict = answer[1] as u16;
                }
                [0, accepted, 0, 0]
            };
        }
        lent(&mut t.answer)[..4].copy_from_slice(&answer);
        t
    }
}

/// The first counters of a tray, to show them.
fn first(counters: &[u16]) -> &[u16] {
    &counters[..counters.len().min(20)]
}

/// What is known of a tray: the verdicts and the record after it, or the number and the place of a refusal.
#[derive(Clone, Copy, Debug)]
enum Trayed<'a> {
    Judged(&'a [u16], Record),
    Refused(u64, u64),
}

impl Compare {
    /// Rooms of these lengths, running, verdicts and answer, as for a scan.
    fn tray_rooms(&mut self, record: Record, [running, verdicts, answer]: [usize; 3]) -> Tray {
        let Scan { running, answer } = self.scan_rooms(record, [running, answer]);
        let verdicts = self.random.row(verdicts + 2 * AROUND);
        Tray {
            answer,
            running,
            verdicts,
        }
    }

    /// A tray, with rooms of these lengths, running, verdicts and answer; on each side also held to the same scans given singly.
    /// The record after it, where there is room for it.
    fn tray(&mut self, bytes: &[u8], record: Record, counters: &[u16], lens: [usize; 3]) -> Record {
        let before = self.tray_rooms(record, lens);
        let (told_a, a) = before.ask(&PROVED, bytes, counters);
        let (told_b, mut b) = before.ask(&PLAIN, bytes, counters);
        let roomy = lens[0] >= 8 && lens[2] >= 4;
        let number = counters.len();
        self.tell(
            (told_a, told_b) == (roomy, roomy) && a == b && (roomy || b == before),
            bytes,
            format_args!(
                "tray of {number} at {:?} of {record:?}, rooms {lens:?}",
                first(counters)
            ),
            format_args!("{told_a} {a:?}"),
            format_args!("{told_b} {b:?}"),
        );
        if !roomy {
            self.saw("tray: a room too short".into());
            return record;
        }
        let singly = [PROVED, PLAIN].map(|side| before.singly(&side, bytes, counters));
        self.tell(
            a == singly[0] && b == singly[1],
            bytes,
            format_args!(
                "tray of {number} at {:?} of {record:?}, beside single scans",
                first(counters)
            ),
            format_args!("{a:?}, singly {:?}", singly[0]),
            format_args!("{b:?}, singly {:?}", singly[1]),
        );
        let answer = &lent(&mut b.answer)[..4];
        self.saw_refusal("tray", answer);
        if let [0, accepted, ..] = *answer {
            let accepted = accepted as usize;
            self.in_trays[0] += accepted as u64;
            self.in_trays[1] += (number - accepted) as u64;
            let kind = match (accepted, number) {
                (0, 0) => "no scan",
                (0, _) => "none accepted",
                (256, _) => "256 accepted",
                (_, 256) => "some of 256 accepted",
                _ if accepted == number => "all accepted",
                _ => "some accepted",
            };
            self.saw(format!("tray: {kind}"));
        }
        std::array::from_fn(|i| lent(&mut b.running)[i])
    }

    /// Both sides judge a tray as is known, with a room for so many verdicts.
    fn named_tray(
        &mut self,
        bytes: &[u8],
        record: Record,
        counters: &[u16],
        places: usize,
        known: Trayed,
    ) {
        let before = self.tray_rooms(record, [8, places, 4]);
        let mut expected = before.clone();
        let answer = match known {
            Trayed::Judged(verdicts, after) => {
                lent(&mut expected.running).copy_from_slice(&after);
                lent(&mut expected.verdicts)[..verdicts.len()].copy_from_slice(verdicts);
                let accepted = verdicts.iter().filter(|&&verdict| verdict == 0).count();
                [0, accepted as u64, 0, 0]
            }
            Trayed::Refused(number, place) => [number, place, 0, 0],
        };
        lent(&mut expected.answer).copy_from_slice(&answer);
        let told = [PROVED, PLAIN].map(|side| before.ask(&side, bytes, counters));
        self.tell(
            told.iter().all(|t| *t == (true, expected.clone())),
            bytes,
            format_args!(
                "tray of {} at {:?} of {record:?}, room {places}, known {known:?}",
                counters.len(),
                first(counters)
            ),
            format_args!("{:?}", told[0]),
            format_args!("{:?}", told[1]),
        );
    }

    /// Trays at which a judge goes wrong easily.
    fn trays_known(&mut self) {
        use Trayed::Judged;
        let s1 = SAMPLES[0].bytes;
        let begun = |counter| record(1, &[], counter);
        // One is turned away in the middle, and the next goes on from the record as it was.
        let known = Judged(&[1, 0], record(1, &[0], 3));
        self.named_tray(s1, begun(0), &[1, 3], 2, known);
        let known = Judged(&[0, 1, 1, 0, 1], record(1, &[0], 6));
        self.named_tray(s1, begun(0), &[3, 4, 5, 6, 8], 5, known);
        // No scan, and no change, whatever the record is that can go on.
        let kept = [1, 4001, 9999, 65535, 4002, 0, 1, 65535];
        for places in [0, 1, 256, 300] {
            self.named_tray(s1, begun(7), &[], places, Judged(&[], begun(7)));
            self.named_tray(s1, kept, &[], places, Judged(&[], kept));
        }
        // As many as there can be: all accepted, all but the first or the last, every other one, none.
        let every_three: Vec<u16> = (1..=256).map(|i| 65000_u16.wrapping_add(3 * i)).collect();
        let known = Judged(&[0; 256], record(1, &[0], every_three[255]));
        self.named_tray(s1, begun(65000), &every_three, 256, known);
        let (most, after) = (&every_three[..255], record(1, &[0], every_three[254]));
        let (soon, verdicts) = ([&[65002], most].concat(), [vec![1], vec![0; 255]].concat());
        self.named_tray(s1, begun(65000), &soon, 256, Judged(&verdicts, after));
        let (soon, verdicts) = (
            [most, &[every_three[255] - 1]].concat(),
            [vec![0; 255], vec![1]].concat(),
        );
        self.named_tray(s1, begun(65000), &soon, 256, Judged(&verdicts, after));
        let every_two: Vec<u16> = (1..=256).map(|i| 65000_u16.wrapping_add(2 * i)).collect();
        let verdicts: Vec<u16> = [1, 0].repeat(128);
        let after = record(1, &[0], every_two[255]);
        self.named_tray(s1, begun(65000), &every_two, 256, Judged(&verdicts, after));
        self.named_tray(s1, begun(7), &[9; 256], 256, Judged(&[1; 256], begun(7)));
        // Ticks are measured from the last accepted scan, round the circle too, and not from the neighbour.
        let hundred = table(1, &[vec![guard(1, EXACTLY, 100), reset(1)]]);
        let counters = [65530, 65535, 10, 60, 64, 100, 163, 164];
        let known = Judged(&[1, 1, 1, 1, 0, 1, 1, 0], record(1, &[0], 164));
        self.named_tray(&hundred, begun(65500), &counters, 8, known);
        let slow = table(1, &[vec![guard(1, AT_LEAST, 4000)]]);
        let mut counters: Vec<u16> = (1..=255).map(|i| 64000_u16.wrapping_add(15 * i)).collect();
        counters.push(64000_u16.wrapping_add(4000));
        let verdicts = [vec![1; 255], vec![0]].concat();
        let known = Judged(&verdicts, record(1, &[4000], counters[255]));
        self.named_tray(&slow, begun(64000), &counters, 256, known);
        // Up to 65,535 ticks after it.
        let soon = table(1, &[vec![guard(1, AT_LEAST, 0), guard(1, AT_MOST, 10)]]);
        let counters: Vec<u16> = (1..=255).map(|i| 9_u16.wrapping_add(257 * i)).collect();
        self.named_tray(&soon, begun(9), &counters, 255, Judged(&[2; 255], begun(9)));
        let long = table(1, &[vec![guard(1, OVER, 4000), reset(1)]]);
        let counters = [4000, 65535, 3999, 0, 65534, 65533];
        let known = Judged(&[1, 0, 1, 1, 0, 0], record(1, &[0], 65533));
        self.named_tray(&long, begun(0), &counters, 6, known);
        // Each of 64 guards, the last one first.
        let crowd = (1..=64).map(|b| guard(1, AT_MOST, 165 - b)).collect();
        let crowd = table(1, &[crowd]);
        let counters: Vec<u16> = (101..=165).collect();
        let verdicts: Vec<u16> = [0].into_iter().chain((1..=64).rev()).collect();
        let known = Judged(&verdicts, record(1, &[101], 101));
        self.named_tray(&crowd, begun(0), &counters, 65, known);
    }

    /// Trays and rooms for verdicts at their limits, and what is refused first.
    fn trays_refused(&mut self) {
        use Trayed::{Judged, Refused};
        let s1 = SAMPLES[0].bytes;
        let (begun, unfit) = (record(1, &[], 0), record(2, &[], 0));
        for number in [1, 2, 3, 255, 256] {
            let counters: Vec<u16> = (1..=number as u16).map(|i| 3 * i).collect();
            let after = record(1, &[], 3 * number as u16);
            let known = Judged(&[0; 256][..number], after);
            for more in [0, 1, 2, 300] {
                self.named_tray(s1, begun, &counters, number + more, known);
            }
            for places in [0, number / 2, number - 1] {
                self.named_tray(s1, begun, &counters, places, Refused(19, 0));
                self.named_tray(s1, unfit, &counters, places, Refused(17, 0));
            }
            self.named_tray(s1, unfit, &counters, number, Refused(17, 0));
        }
        // Lengths that are 0, 1 or 256 in a byte or in two.
        for number in [257, 258, 300, 511, 512, 513, 65535, 65536, 65537, 65792] {
            let counters = vec![3; number];
            for places in [0, 256, number - 1, number, number + 1] {
                self.named_tray(s1, begun, &counters, places, Refused(18, 0));
                self.named_tray(s1, unfit, &counters, places, Refused(17, 0));
            }
        }
        for unfit in [unfit, record(0, &[], 0), record(1, &[4002], 0)] {
            for places in [0, 1, 256] {
                self.named_tray(s1, unfit, &[], places, Refused(17, 0));
            }
        }
    }

    /// Rooms of all lengths that matter: of trays that are judged and refused.
    fn tray_rooms_known(&mut self) {
        let s1 = SAMPLES[0].bytes;
        for running in 0..=12 {
            for answer in 0..=7 {
                for verdicts in 0..=4 {
                    let lens = [running, verdicts, answer];
                    for number in 0..=3 {
                        self.tray(s1, record(1, &[0], 0), &[2, 3, 6][..number], lens);
                        self.tray(s1, record(2, &[0], 0), &[2, 3, 6][..number], lens);
                    }
                    self.tray(s1, record(1, &[0], 0), &[3; 257], lens);
                }
            }
        }
    }

    /// How many scans a tray has: few, as many as there can be, or too many.
    fn tray_size(&mut self) -> usize {
        match self.random.within(0, 11) {
            0 => self.random.within(0, 1),
            1 => 256,
            2 => self.random.within(250, 256),
            3 => self.random.within(257, 260),
            4 => self.random.within(20, 250),
            _ => self.random.within(2, 20),
        }
    }

    /// Lengths of the rooms of a tray of so many scans, mostly long enough.
    fn tray_lens(&mut self, number: usize) -> [usize; 3] {
        let more = self.random.within(0, 3);
        match self.random.within(0, 15) {
            0 => [self.random.within(0, 12), number, self.random.within(0, 7)],
            1 => [8, number.saturating_sub(1), 4],
            2 => [8, self.random.within(0, number), 4],
            _ => [8 + more, number + more, 4 + more],
        }
    }

    /// A shift in so many trays, with counters as in one of single scans.
    fn shift_in_trays(&mut self, bytes: &[u8], trays: usize) {
        let Ok(table) = plain::Table::parse(bytes) else {
            return;
        };
        let mut running = record(1, &[], self.random.next() as u16);
        for _ in 0..trays {
            let number = self.tray_size();
            let mut now = running;
            let mut counters = Vec::new();
            for _ in 0..number {
                let counter = self.counter(&table, bytes, now);
                scans::entries::scan(bytes, counter, &mut now, &mut [9; 4]);
                counters.push(counter);
            }
            let lens = self.tray_lens(number);
            running = self.tray(bytes, running, &counters, lens);
        }
    }

    /// Any record with a table's bytes, and a tray at any counters.
    fn any_tray(&mut self, bytes: &[u8]) {
        let running = self.any_record(bytes);
        let number = self.tray_size();
        let mut counter = running[7];
        let mut counters = Vec::new();
        for _ in 0..number {
            counter = counter.wrapping_add(self.any_ticks());
            counters.push(counter);
        }
        let lens = self.tray_lens(number);
        self.tray(bytes, running, &counters, lens);
    }
}

// Cards.

/// Which way is converted.
#[derive(Clone, Copy, PartialEq, Debug)]
enum Way {
    ToTable,
    FromTable,
}

impl Way {
    fn name(self) -> &'static str {
        match self {
            Way::ToTable => "card to table",
            Way::FromTable => "table to card",
        }
    }

    fn back(self) -> Way {
        match self {
            Way::ToTable => Way::FromTable,
            Way::FromTable => Way::ToTable,
        }
    }

    fn plain(self, input: &[u8]) -> Result<Vec<u8>, plain::Refusal> {
        match self {
            Way::ToTable => cards::to_table(input),
            Way::FromTable => cards::from_table(input),
        }
    }
}

/// The rooms of a conversion, with places around them.
#[derive(Clone, PartialEq, Debug)]
struct Conversion {
    answer: Vec<u64>,
    output: Vec<u8>,
}

impl Conversion {
    fn ask(&self, side: &Side, way: Way, input: &[u8]) -> (bool, Conversion) {
        let mut c = self.clone();
        let convert = match way {
            Way::ToTable => side.to_table,
            Way::FromTable => side.from_table,
        };
        let told = convert(input, lent(&mut c.output), lent(&mut c.answer));
        (told, c)
    }
}

/// What is known of a conversion: the output, or the number and the place of a refusal.
type Written<'a> = Result<&'a [u8], (u64, u64)>;

/// The lines of a legal table's card, each with its line feed.
fn lines_of(bytes: &[u8]) -> Vec<String> {
    const SIGNS: [&str; 5] = ["<", "<=", "=", ">=", ">"];
    let mut lines = Vec::new();
    let mut at = 0;
    while at < bytes.len() {
        let (line, size) = match bytes[at..] {
            [1, n, ..] => (format!("timers {n}\n"), 2),
            [2, n, relation, low, high, ..] => {
                let constant = u16::from_le_bytes([low, high]);
                let sign = SIGNS[usize::from(relation)];
                (format!("{n} {sign} {constant}\n"), 5)
            }
            [3, n, ..] => (format!("zero {n}\n"), 2),
            [4, ..] => ("step\n".into(), 1),
            _ => ("end\n".into(), 1),
        };
        lines.push(line);
        at += size;
    }
    lines
}

/// A number as a card may have it: small, at a limit, beyond all bits of a machine's numbers, long, or not well formed.
fn numeral(random: &mut Random) -> String {
    const WIDE: [&str; 8] = [
        "256",
        "257",
        "65536",
        "65537",
        "4294967296",
        "4294967297",
        "18446744073709551616",
        "18446744073709551617",
    ];
    const WRONG: [&str; 8] = ["", "00", "01", "+1", "-1", "1.0", "0x1", "1 "];
    match random.within(0, 9) {
        0..=3 => random.within(0, 8).to_string(),
        4 => random.within(3995, 4005).to_string(),
        5 | 6 => WIDE[random.within(0, 7)].into(),
        7 => {
            let digits = [random.within(2, 30), random.within(300, 6000)][random.within(0, 1)];
            let first = random.within(1, 9).to_string();
            first + &random.within(0, 9).to_string().repeat(digits - 1)
        }
        8 => random.within(0, 70000).to_string(),
        _ => WRONG[random.within(0, 7)].into(),
    }
}

/// A line, well formed or nearly.
fn any_line(random: &mut Random) -> String {
    const SIGNS: [&str; 10] = ["<", "<=", "=", ">=", ">", "==", "=<", "=>", "<>", "! ="];
    const WORDS: [&str; 12] = [
        "", " ", "step ", " step", "Step", "steps", "ste", "END", "en", "end\r", "timers", "zero",
    ];
    let line = match random.within(0, 9) {
        0 => format!("timers {}", numeral(random)),
        1 | 2 => format!("zero {}", numeral(random)),
        3 => "step".into(),
        4 => "end".into(),
        5 => WORDS[random.within(0, 11)].into(),
        _ => {
            let sign = SIGNS[if random.one_in(4) {
                random.within(0, 9)
            } else {
                random.within(0, 4)
            }];
            format!("{} {sign} {}", numeral(random), numeral(random))
        }
    };
    line + "\n"
}

/// A byte that cards have, or that is near to one.
fn letter(random: &mut Random) -> u8 {
    const LETTERS: &[u8] = b"  \n\n\t\r\0<>=0123456789timerszostepndTZSE+-.\x0b\xa0\xff";
    LETTERS[random.within(0, LETTERS.len() - 1)]
}

/// Puts many lines, perhaps too many, after the first, and then one that may have several faults.
fn too_many_lines(random: &mut Random, lines: &mut Vec<String>) {
    let (few, many) = [(0, 3), (14, 18), (62, 66)][random.within(0, 2)];
    let number = random.within(few, many);
    let line = ["step\n", "1 >= 4000\n", "1 < 0\n"][random.within(0, 2)];
    let mut more = vec![line.to_string(); number];
    more.push(any_line(random));
    lines.splice(1..1, more);
}

/// Text that is a card only by chance.
fn damaged_card(random: &mut Random) -> Vec<u8> {
    let mut lines = lines_of(&legal(random));
    let line = random.within(0, lines.len() - 1);
    match random.within(0, 13) {
        0 => lines.insert(line, any_line(random)),
        1 => lines[line] = any_line(random),
        2 => {
            lines.remove(line);
        }
        3 => {
            let other = random.within(0, lines.len() - 1);
            lines.swap(line, other);
        }
        4 => {
            let again = lines[line].clone();
            lines.insert(random.within(line, lines.len() - 1), again);
        }
        5 => too_many_lines(random, &mut lines),
        6 => lines.push(any_line(random)),
        7 => lines = (0..random.within(0, 9)).map(|_| any_line(random)).collect(),
        _ => {}
    }
    let mut text = lines.concat().into_bytes();
    if random.one_in(2) && !text.is_empty() {
        let place = random.within(0, text.len() - 1);
        match random.within(0, 7) {
            0 => text[place] = random.next() as u8,
            1 => text[place] = letter(random),
            2 => text.truncate(place),
            3 => {
                text.remove(place);
            }
            4 => text.insert(place, letter(random)),
            5 => text.insert(place, text[place]),
            6 => {
                let number = random.within(1, 9);
                text.extend((0..number).map(|_| letter(random)));
            }
            _ => long_text(random, &mut text),
        }
    }
    text
}

/// Makes a text as long as is read, or a byte less or more, or up to 20,000 bytes: by digits, line feeds, or lines.
fn long_text(random: &mut Random, text: &mut Vec<u8>) {
    let length = [16_383, 16_384, 16_385, random.within(16_000, 20_000)][random.within(0, 3)];
    let more: [&[u8]; 4] = [b"7", b"\n", b"step\n", b"zero 1\n"];
    let more = more[random.within(0, 3)];
    let missing = length - text.len();
    let place = random.within(0, text.len());
    text.splice(place..place, more.iter().copied().cycle().take(missing));
}

impl Compare {
    /// Converts, with rooms of these lengths, output and answer. The output, where there is one.
    fn convert(&mut self, way: Way, input: &[u8], lens: [usize; 2]) -> Option<Vec<u8>> {
        let before = Conversion {
            output: self.random.bytes(lens[0] + 2 * AROUND, 255),
            answer: self.random.room(lens[1] + 2 * AROUND),
        };
        let (told_a, a) = before.ask(&PROVED, way, input);
        let (told_b, mut b) = before.ask(&PLAIN, way, input);
        let roomy = lens[1] >= 4;
        let answer: Vec<u64> = lent(&mut b.answer).iter().copied().take(4).collect();
        let written = match answer[..] {
            [0, number, ..] if roomy => number as usize,
            _ => 0,
        };
        // What is not named as written is kept.
        let mut kept = before.clone();
        if roomy {
            lent(&mut kept.answer)[..4].copy_from_slice(&answer);
        }
        let output = lent(&mut b.output)[..written].to_vec();
        lent(&mut kept.output)[..written].copy_from_slice(&output);
        self.tell(
            (told_a, told_b) == (roomy, roomy) && a == b && b == kept,
            &[],
            format_args!(
                "{} of {:.2000}, rooms {lens:?}",
                way.name(),
                input.escape_ascii().to_string()
            ),
            format_args!("{told_a} {a:?}"),
            format_args!("{told_b} {b:?}"),
        );
        if !roomy {
            self.saw(format!("{}: answer room too short", way.name()));
            return None;
        }
        self.saw_refusal(way.name(), &answer);
        if answer[0] != 0 {
            self.saw(format!("{}: refusal {:2}", way.name(), answer[0]));
            return None;
        }
        self.saw(format!("{}: answered", way.name()));
        Some(output)
    }

    /// The same with rooms that are short, exact and longer; and back again.
    fn convert_all(&mut self, way: Way, input: &[u8]) {
        let length = way.plain(input).map_or(0, |output| output.len());
        let more = self.random.within(0, 40);
        let fewer = self.random.within(0, length);
        let answer = self.random.within(0, 7);
        for lens in [
            [length + more, 4],
            [length.saturating_sub(1), 4],
            [fewer, 4],
            [length, answer],
        ] {
            self.convert(way, input, lens);
        }
        if let Some(output) = self.convert(way, input, [length, 4]) {
            let again = self.convert(way.back(), &output, [input.len(), 4]);
            self.returns(way, input, again.as_deref());
        }
    }

    /// What was converted, there and back, is what it was.
    fn returns(&mut self, way: Way, input: &[u8], again: Option<&[u8]>) {
        self.tell(
            again == Some(input),
            &[],
            format_args!("{} of {}, and back", way.name(), input.escape_ascii()),
            format_args!("{again:?}"),
            format_args!("{again:?}"),
        );
    }

    /// Both sides convert as is known: in rooms that are exact and longer, and in one that is too short; a refusal comes before that.
    fn named_conversion(&mut self, way: Way, input: &[u8], known: Written) {
        let length = known.map_or(9, |output| output.len());
        for places in [0, length - 1, length, length + 1, length + 2000] {
            let before = Conversion {
                output: self.random.bytes(places + 2 * AROUND, 255),
                answer: self.random.room(4 + 2 * AROUND),
            };
            let mut expected = before.clone();
            let answer = match known {
                Err((number, place)) => [number, place, 0, 0],
                Ok(_) if places < length => [21, 0, 0, 0],
                Ok(output) => {
                    lent(&mut expected.output)[..length].copy_from_slice(output);
                    [0, length as u64, 0, 0]
                }
            };
            lent(&mut expected.answer).copy_from_slice(&answer);
            let told = [PROVED, PLAIN].map(|side| before.ask(&side, way, input));
            self.tell(
                told.iter().all(|t| *t == (true, expected.clone())),
                &[],
                format_args!(
                    "{} of {:.2000}, room {places}, known {answer:?}",
                    way.name(),
                    input.escape_ascii().to_string()
                ),
                format_args!("{:?}", told[0]),
                format_args!("{:?}", told[1]),
            );
        }
    }

    /// A card and its table, both ways.
    fn named_card(&mut self, card: &str, table: &[u8]) {
        self.named_conversion(Way::ToTable, card.as_bytes(), Ok(table));
        self.named_conversion(Way::FromTable, table, Ok(card.as_bytes()));
    }

    fn refused_card(&mut self, card: &str, number: u64, place: u64) {
        self.named_conversion(Way::ToTable, card.as_bytes(), Err((number, place)));
    }

    /// The samples; the signs; the order within a step; and the longest card.
    fn cards_known(&mut self) {
        for (sample, card) in SAMPLES.iter().zip(CARDS) {
            self.named_card(card, sample.bytes);
        }
        self.named_card("timers 6\nstep\nend\n", &[1, 6, 4, 5]);
        let every_sign = "timers 1\n1 < 0\n1 <= 1\n1 = 255\n1 >= 256\n1 > 4000\nstep\nend\n";
        let guards = [
            guard(1, UNDER, 0),
            guard(1, AT_MOST, 1),
            guard(1, EXACTLY, 255),
            guard(1, AT_LEAST, 256),
            guard(1, OVER, 4000),
        ];
        self.named_card(every_sign, &table(1, &[guards.to_vec()]));
        let mixed = "timers 2\nzero 2\n1 < 3\nzero 1\n2 > 4\nstep\nstep\nzero 2\nstep\nend\n";
        let first = vec![reset(2), guard(1, UNDER, 3), reset(1), guard(2, OVER, 4)];
        let mixed_table = table(2, &[first, vec![], vec![reset(2)]]);
        self.named_card(mixed, &mixed_table);
        let resets: Vec<_> = (1..=6).map(reset).collect();
        let guards: Vec<_> = (1..=4).map(|j| guard(j, AT_LEAST, 4000)).collect();
        let longest = table(6, &vec![[guards, resets].concat(); 16]);
        let card = lines_of(&longest).concat();
        assert_eq!((longest.len(), card.len()), (cards::TABLE, cards::CARD));
        self.named_card(&card, &longest);
        let bounds = "timers 1\n".to_string() + &"1 = 7\n".repeat(64) + "step\nend\n";
        self.named_card(&bounds, &table(1, &[vec![guard(1, EXACTLY, 7); 64]]));
        let steps = "timers 1\n".to_string() + &"step\n".repeat(16) + "end\n";
        self.named_card(&steps, &table(1, &vec![vec![]; 16]));
    }

    /// Each refusal, and what is refused first.
    fn cards_refused(&mut self) {
        // The text stops, or its last line has no line feed.
        let whole = "timers 2\n1 >= 3\nzero 1\nstep\nend\n";
        for end in 0..whole.len() {
            let start = whole[..end].rfind('\n').map_or(0, |at| at + 1);
            let number = if start == end { 2 } else { 20 };
            self.refused_card(&whole[..end], number, start as u64);
        }
        // The first line; a second such line.
        for head in ["timers 0", "timers 7", "timers 18446744073709551617"] {
            self.refused_card(&format!("{head}\n"), 4, 0);
        }
        for head in ["7 < 9", "step", "zero 9", "1 < 9999", "end"] {
            self.refused_card(&format!("{head}\n"), 4, 0);
        }
        for head in ["seven", "", "timers", "timers ", "Timers 1", "timers 01"] {
            self.refused_card(&format!("{head}\nstep\nend\n"), 20, 0);
        }
        // A second line of a card with one timer, by itself, and where more faults follow.
        for (line, number) in [
            ("timers 1", 4),
            ("timers 9", 4),
            ("0 < 1", 6),
            ("2 < 1", 6),
            ("7 < 5000", 6),
            ("257 < 1", 6),
            ("zero 0", 6),
            ("zero 2", 6),
            ("zero 65537", 6),
            ("1 < 4001", 8),
            ("1 < 65536", 8),
            ("1 > 18446744073709551616", 8),
            ("end", 9),
            ("zero 1\nend", 9),
            ("1 < 1\nend", 9),
            ("step\nzero 1\nend", 9),
            ("step\n1 <= 0\nend", 9),
            ("zero 1\nzero 1", 16),
            ("zero 1\n1 < 1\nzero 1", 16),
            ("", 20),
            ("x", 20),
            (" step", 20),
            ("step ", 20),
            ("step\r", 20),
            ("STEP", 20),
            ("end ", 20),
            ("zero", 20),
            ("zero ", 20),
            ("zero  1", 20),
            ("zero\t1", 20),
            ("zero 01", 20),
            ("zero 1 ", 20),
            ("zero 1 1", 20),
            ("1 < ", 20),
            ("1 <", 20),
            (" < 1", 20),
            ("1<1", 20),
            ("1 <1", 20),
            ("1< 1", 20),
            ("1  < 1", 20),
            ("1 <  1", 20),
            ("1 < = 1", 20),
            ("1 =< 1", 20),
            ("1 => 1", 20),
            ("1 == 1", 20),
            ("1 < +1", 20),
            ("1 < -1", 20),
            ("1 < 00", 20),
            ("01 < 1", 20),
            ("1 < 1\t", 20),
            ("1 < 1 < 1", 20),
        ] {
            let before = line.rfind('\n').map_or(0, |at| at + 1);
            for after in ["\n", "\nx", "\nend\n", "\ntimers 1\n\n"] {
                let card = format!("timers 1\n{line}{after}");
                self.refused_card(&card, number, 9 + before as u64);
            }
        }
        // After "end".
        for after in ["\n", "x", "end\n", " ", "\0", "timers 1\n"] {
            self.refused_card(&format!("timers 1\nstep\nend\n{after}"), 10, 18);
            self.refused_card(&format!("timers 1\nend\n{after}"), 9, 9);
        }
        // Limits.
        for line in ["1 = 7", "9 = 7", "1 = 9999"] {
            let card = "timers 1\n".to_string() + &"1 = 7\n".repeat(64) + line + "\n";
            self.refused_card(&card, 5, 393);
        }
        let card = "timers 1\n".to_string() + &"step\n".repeat(17) + "end\n";
        self.refused_card(&card, 9, 89);
        for digits in [20, 6000] {
            let nines = "9".repeat(digits);
            self.refused_card(&format!("timers {nines}\n"), 4, 0);
            self.refused_card(&format!("timers 1\nzero {nines}\n"), 6, 9);
            self.refused_card(&format!("timers 1\n{nines} < 1\n"), 6, 9);
            self.refused_card(&format!("timers 1\n1 < {nines}\n"), 8, 9);
            self.refused_card(&format!("timers 1\n1 < 0{nines}\n"), 20, 9);
        }
        // Too long is told first.
        for (text, place) in [("\n", 0), ("timers 1\nstep\nend\n", 18)] {
            let number = if place == 0 { 20 } else { 10 };
            let most = text.to_string() + &"\n".repeat(cards::LONGEST - text.len());
            self.refused_card(&most, number, place);
            self.refused_card(&(most.clone() + "\n"), 20, 16_384);
            self.refused_card(&most.repeat(5), 20, 16_384);
        }
    }
}

/// What must occur: every refusal, and in both variants every kind of answer.
fn kinds() -> impl Iterator<Item = String> {
    let refusals = (1..=21).map(|number| format!("refusal {number:2}"));
    let answers = STARTS.into_iter().flat_map(|start| {
        [
            ("rounds", "without end"),
            ("rounds", "0"),
            ("rounds", "1 to 99"),
            ("rounds", "100 and more"),
            ("plan", "found"),
            ("plan", "a loop"),
            ("demands", "answered"),
        ]
        .map(|(question, kind)| format!("{question} {}: {kind}", variant(start)))
    });
    let panel = [
        "windows: all closed",
        "windows: all open",
        "windows: closed and open",
        "windows: absent",
        "widest: closed",
        "widest: one moment",
        "widest: none is closed",
    ];
    let scans = [
        "log-in: answered",
        "log-in: room too short",
        "scan: accepted",
        "scan: turned away",
        "scan: refused",
        "scan: a room too short",
    ];
    let trays = [
        "tray: no scan",
        "tray: none accepted",
        "tray: some accepted",
        "tray: some of 256 accepted",
        "tray: all accepted",
        "tray: 256 accepted",
        "tray: refused",
        "tray: a room too short",
    ];
    let cards = [
        (Way::ToTable, vec![2, 4, 5, 6, 8, 9, 10, 16, 20, 21]),
        (Way::FromTable, vec![1, 2, 3, 4, 5, 6, 7, 8, 9, 10, 16, 21]),
    ]
    .into_iter()
    .flat_map(|(way, numbers)| {
        let refusals = numbers
            .into_iter()
            .map(|number| format!("refusal {number:2}"));
        ["answered".into(), "answer room too short".into()]
            .into_iter()
            .chain(refusals)
            .map(move |kind| format!("{}: {kind}", way.name()))
    });
    refusals
        .chain(answers)
        .chain(panel.map(String::from))
        .chain(scans.map(String::from))
        .chain(trays.map(String::from))
        .chain(cards)
}

fn main() {
    let (legal_tables, damaged_tables, panel_tables) = (4000, 4000, 6000);
    let (scan_tables, tray_tables) = (8000, 4000);
    let (legal_cards, damaged_cards) = (8000, 40_000);
    let mut compare = Compare {
        random: Random(20),
        agreed: 0,
        differ: 0,
        seen: BTreeMap::new(),
        longest_loop: 0,
        seconds: 0,
        in_trays: [0; 2],
    };
    for s in &SAMPLES {
        compare.sample(s);
    }
    compare.limits();
    compare.windows_known();
    compare.seconds_known();
    for _ in 0..legal_tables {
        let bytes = legal(&mut compare.random);
        let accepted = plain::read(&bytes).is_ok();
        compare.tell(
            accepted,
            &bytes,
            format_args!("a legal table"),
            format_args!(""),
            format_args!("refused"),
        );
        compare.all(&bytes);
    }
    for _ in 0..damaged_tables {
        let bytes = damaged(&mut compare.random);
        compare.all(&bytes);
    }
    for _ in 0..panel_tables {
        let bytes = legal(&mut compare.random);
        let most = plain::TOTAL / plain::read(&bytes).map_or(1, |c| c.steps);
        let k = compare.random.within(1, most);
        compare.panel(&bytes, most as u64);
        compare.panel(&bytes, k as u64);
    }
    compare.scans_of_samples();
    compare.scans_known();
    compare.relations_known();
    compare.rounds_known();
    compare.records_known();
    compare.faults_known();
    compare.scan_rooms_known();
    for _ in 0..scan_tables {
        let bytes = legal(&mut compare.random);
        compare.shift(&bytes, 40);
        for _ in 0..20 {
            compare.any_scan(&bytes);
        }
        let bytes = damaged(&mut compare.random);
        for _ in 0..5 {
            compare.any_scan(&bytes);
        }
    }
    compare.trays_known();
    compare.trays_refused();
    compare.tray_rooms_known();
    for _ in 0..tray_tables {
        let bytes = legal(&mut compare.random);
        compare.shift_in_trays(&bytes, 5);
        for _ in 0..5 {
            compare.any_tray(&bytes);
        }
        let bytes = damaged(&mut compare.random);
        for _ in 0..2 {
            compare.any_tray(&bytes);
        }
    }
    compare.cards_known();
    compare.cards_refused();
    for _ in 0..legal_cards {
        let bytes = legal(&mut compare.random);
        let card = lines_of(&bytes).concat().into_bytes();
        compare.convert_all(Way::FromTable, &bytes);
        compare.convert_all(Way::ToTable, &card);
        let bytes = damaged(&mut compare.random);
        compare.convert_all(Way::FromTable, &bytes);
    }
    for _ in 0..damaged_cards {
        let card = damaged_card(&mut compare.random);
        compare.convert_all(Way::ToTable, &card);
    }
    println!(
        "{} samples and the limits, {legal_tables} legal tables, {damaged_tables} damaged ones, {panel_tables} for the panel, \
         {scan_tables} of both sorts for scans and {tray_tables} for trays, {legal_cards} cards and {damaged_cards} damaged ones",
        SAMPLES.len()
    );
    for (what, number) in &compare.seen {
        println!("{what}: {number}");
    }
    println!("longest loop: {} moments", compare.longest_loop);
    println!("seconds held to their fractions: {}", compare.seconds);
    let [accepted, turned_away] = compare.in_trays;
    println!("scans in trays: {accepted} accepted, {turned_away} turned away");
    let missing: Vec<String> = kinds()
        .filter(|kind| !compare.seen.contains_key(kind))
        .collect();
    if !missing.is_empty() {
        println!("did not occur: {missing:?}");
    }
    println!(
        "compare: {} agreed, {} differ",
        compare.agreed, compare.differ
    );
    if compare.differ > 0 || !missing.is_empty() {
        std::process::exit(1);
    }
}
