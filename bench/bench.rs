//! Times the proved libraries beside plain Rust, question by question, from log-in and in mid-shift; the panel also beside the
//! plan of the same rounds; a scan also beside reading the same table, which each scan does; a tray of scans also beside the same
//! scans given singly; and cards, to tables and back.
//!
//! The sides take turns in the same run, each turn a batch of calls; the median batch counts. Time is that of this thread on a
//! processor, so that other work on the machine does not count. The answers of the two must agree.

#[path = "../terminal/card.rs"]
mod card;
#[path = "../plain/cards.rs"]
mod cards;
mod clock;
#[path = "../terminal/judge.rs"]
mod judge;
#[path = "../terminal/panel.rs"]
mod panel;
#[path = "../plain/plain.rs"]
mod plain;
#[path = "../terminal/scan.rs"]
mod scan;
#[path = "../plain/scans.rs"]
mod scans;
mod tables;
#[path = "../terminal/tray.rs"]
mod tray;

use clock::time;
use plain::entries;
use std::cell::RefCell;
use std::hint::black_box;
use tables::*;

/// How often the sides take turns.
const TURNS: usize = 201;

/// A line of the table: for each variant the times of the library and of plain Rust, and their ratio.
fn show(question: &str, times: &[f64]) {
    print!("{question:<60}");
    for pair in times.chunks(2) {
        print!(
            " {:>11.0} {:>11.0} {:>6.2}",
            pair[0],
            pair[1],
            pair[0] / pair[1]
        );
    }
    if let [log_in, _, mid_shift, _] = times {
        print!(" {:>9.2}", log_in / mid_shift);
    }
    println!();
}

/// What is said of both variants: once where it is the same.
fn both(log_in: String, mid_shift: String) -> String {
    if log_in == mid_shift {
        log_in
    } else {
        format!("{log_in} / {mid_shift}")
    }
}

fn bench_read(name: &str, bytes: &[u8]) {
    let (mut a, mut b) = ([9; 4], [9; 4]);
    assert!(judge::read(bytes, &mut a) && entries::read(bytes, &mut b));
    assert_eq!(a, b);
    assert_eq!(a[0], 0);
    let times = time(TURNS, [
        &mut || assert!(judge::read(black_box(bytes), black_box(&mut a))),
        &mut || assert!(entries::read(black_box(bytes), black_box(&mut b))),
    ]);
    show(&format!("read, {name}"), &times);
}

// Of the other questions there are four sides, from log-in the library and plain Rust, and the same in mid-shift. They write to the
// same rooms.

fn bench_rounds(name: &str, bytes: &[u8]) {
    let sides = [
        judge::rounds,
        entries::rounds,
        judge::rounds_mid_shift,
        entries::rounds_mid_shift,
    ];
    let answers = sides.map(|rounds| {
        let mut answer = [9; 4];
        assert!(rounds(bytes, &mut answer));
        assert_eq!(answer[0], 0);
        answer
    });
    assert_eq!(answers[..2], [answers[0]; 2]);
    assert_eq!(answers[2..], [answers[2]; 2]);
    let count = |answer: [u64; 4]| match answer[1] {
        0 => format!("{}", answer[2]),
        _ => "without end".into(),
    };
    let mut calls = sides.map(|rounds| {
        let mut answer = [9; 4];
        move || assert!(rounds(black_box(bytes), black_box(&mut answer)))
    });
    let times = time(TURNS, calls.each_mut().map(|call| call as &mut dyn FnMut()));
    let counts = both(count(answers[0]), count(answers[2]));
    show(&format!("rounds, {name}: {counts}"), &times);
}

/// Rooms that serve every plan.
struct Rooms {
    times: Vec<u64>,
    starts: Vec<u64>,
    room: Vec<u64>,
    answer: [u64; 4],
}

type Plan = fn(&[u8], u64, &mut [u64], &mut [u64], &mut [u64], &mut [u64]) -> bool;

impl Rooms {
    fn new() -> Rooms {
        Rooms {
            times: vec![9; 1024],
            starts: vec![9; 6],
            room: vec![9; 1031],
            answer: [9; 4],
        }
    }

    fn ask(&mut self, plan: Plan, bytes: &[u8], k: u64) {
        let (times, starts, room) = (&mut self.times, &mut self.starts, &mut self.room);
        assert!(plan(
            black_box(bytes),
            black_box(k),
            times,
            starts,
            room,
            &mut self.answer
        ));
        black_box(self);
    }

    /// Whether they hold a loop.
    fn looped(&self) -> bool {
        self.answer[1] == 1
    }

    /// Two sides have the same answer. Which loop is written is free.
    fn agree(&self, other: &Rooms) {
        assert_eq!((&self.times, &self.starts), (&other.times, &other.starts));
        assert_eq!(self.answer[..2], other.answer[..2]);
        assert_eq!(self.answer[0], 0);
        assert!(self.looped() || self.answer == other.answer);
    }
}

fn bench_plan(name: &str, bytes: &[u8], k: u64) {
    let sides: [Plan; 4] = [
        judge::plan,
        entries::plan,
        judge::plan_mid_shift,
        entries::plan_mid_shift,
    ];
    let answers = sides.map(|plan| {
        let mut rooms = Rooms::new();
        rooms.ask(plan, bytes, k);
        rooms
    });
    answers[0].agree(&answers[1]);
    answers[2].agree(&answers[3]);
    let rooms = &RefCell::new(Rooms::new());
    let mut calls = sides.map(|plan| move || rooms.borrow_mut().ask(plan, bytes, k));
    let times = time(TURNS, calls.each_mut().map(|call| call as &mut dyn FnMut()));
    let looped = match (answers[0].looped(), answers[2].looped()) {
        (false, _) => "",
        (true, false) => ", a loop from log-in",
        (true, true) => ", a loop",
    };
    show(&format!("plan, {name}{looped}"), &times);
}

fn bench_demands(name: &str, bytes: &[u8], k: u64) {
    let sides = [
        judge::demands,
        entries::demands,
        judge::demands_mid_shift,
        entries::demands_mid_shift,
    ];
    let answers = sides.map(|demands| {
        let (mut row, mut answer) = (vec![9; 4 * 132_108], [9; 4]);
        assert!(demands(bytes, k, &mut row, &mut answer));
        assert_eq!(answer[0], 0);
        (row, answer)
    });
    assert!(answers[0] == answers[1] && answers[2] == answers[3]);
    let room = &RefCell::new(answers[0].clone());
    let mut calls = sides.map(|demands| {
        move || {
            let (row, answer) = &mut *room.borrow_mut();
            assert!(demands(black_box(bytes), k, black_box(row), answer))
        }
    });
    let times = time(TURNS, calls.each_mut().map(|call| call as &mut dyn FnMut()));
    let [log_in, _, mid_shift, _] = answers.map(|(_, answer)| answer[1].to_string());
    let numbers = both(log_in, mid_shift);
    show(&format!("demands, {name}: {numbers}"), &times);
}

/// Rooms that serve every panel.
struct Panel {
    marks: Vec<u8>,
    times: Vec<f64>,
    answer: [u64; 4],
}

type Windows = fn(&[u8], u64, &mut [u8], &mut [f64], &mut [u64]) -> bool;

impl Panel {
    fn new() -> Panel {
        Panel {
            marks: vec![9; 1024],
            times: vec![9.0; 2048],
            answer: [9; 4],
        }
    }

    fn ask(&mut self, windows: Windows, bytes: &[u8], k: u64) {
        let (marks, times) = (&mut self.marks, &mut self.times);
        assert!(windows(
            black_box(bytes),
            black_box(k),
            marks,
            times,
            &mut self.answer
        ));
        black_box(self);
    }

    /// In words: how many windows are closed.
    fn kind(&self) -> String {
        let total = self.answer[1] as usize;
        let closed = self.marks[..total]
            .iter()
            .filter(|&&mark| mark == 2)
            .count();
        match (self.marks[0], closed) {
            (0, _) => "no run".into(),
            (_, 0) => "all open".into(),
            (_, closed) if closed == total => "all closed".into(),
            (_, closed) => format!("{closed} closed"),
        }
    }
}

/// Windows of the library and of plain Rust, and the library's widest and its plan of the same rounds. Windows by plan.
fn bench_panel(name: &str, bytes: &[u8], k: u64) -> f64 {
    let (mut a, mut b) = (Panel::new(), Panel::new());
    a.ask(panel::windows, bytes, k);
    b.ask(entries::windows, bytes, k);
    let bits = |p: &Panel| -> Vec<u64> { p.times.iter().map(|time| time.to_bits()).collect() };
    assert_eq!(
        (&a.marks, a.answer, bits(&a)),
        (&b.marks, b.answer, bits(&b))
    );
    assert_eq!(a.answer[0], 0);
    assert_eq!(panel::widest(bytes, k), entries::widest(bytes, k));
    let kind = a.kind();
    let mut rooms = Rooms::new();
    let [windows, plain, plan, widest] = time(TURNS, [
        &mut || a.ask(panel::windows, bytes, k),
        &mut || b.ask(entries::windows, bytes, k),
        &mut || rooms.ask(judge::plan, bytes, k),
        &mut || {
            black_box(panel::widest(black_box(bytes), black_box(k)));
        },
    ]);
    let by_plan = windows / plan;
    println!(
        "{:<60} {windows:>11.0} {plain:>11.0} {:>6.2} {by_plan:>7.2} {widest:>11.0} {:>7.2} {plan:>11.0}",
        format!("{name}: {kind}"),
        windows / plain,
        widest / plan
    );
    by_plan
}

/// The panel of all tables here that say something about it.
fn bench_panels() {
    println!(
        "{:<60} {:>38} {:>19} {:>11}",
        "", "windows", "widest", "plan"
    );
    print!(
        "{:<60} {:>11} {:>11} {:>6}",
        "panel", "proved ns", "plain ns", "ratio"
    );
    println!(
        " {:>7} {:>11} {:>7} {:>11}",
        "by plan", "proved ns", "by plan", "proved ns"
    );
    let ratios = rounds()
        .into_iter()
        .map(|(name, bytes, k)| bench_panel(name, &bytes, k));
    let most = ratios.fold(0.0, f64::max);
    println!("windows by plan: at most {most:.2}; the goal is 4");
}

/// A running record: the next step, six readings and a counter.
type Record = [u16; 8];

type Scan = fn(&[u8], u16, &mut [u16], &mut [u64]) -> bool;

/// A scan of a record, which each call has anew. The rooms are left in memory, as a terminal leaves them: to read a row at once that was
/// written number by number would take the processor longer than a small table.
fn ask_scan(
    scan: Scan,
    bytes: &[u8],
    record: &Record,
    counter: u16,
    rooms: &mut ([u64; 4], Record),
) {
    let (answer, running) = rooms;
    *running = *black_box(record);
    assert!(scan(black_box(bytes), black_box(counter), running, answer));
    black_box(rooms);
}

/// A scan at a step, of the library and of plain Rust, and the library's reading of the same table. Scan by reading.
fn bench_scan(name: &str, bytes: &[u8], step: u16, readings: [u16; 6], passed: u16) -> f64 {
    let [x, y, z, u, v, w] = readings;
    // The counter starts again.
    let (record, counter) = ([step, x, y, z, u, v, w, 65535], passed.wrapping_sub(1));
    let (mut told, mut rooms) = (([9; 4], [9; 8]), ([9; 4], [9; 8]));
    ask_scan(scan::one, bytes, &record, counter, &mut told);
    ask_scan(scans::entries::scan, bytes, &record, counter, &mut rooms);
    assert_eq!(told, rooms);
    let kind = match told.0 {
        [0, 0, 0, 0] => "accepted".into(),
        [0, guard, 0, 0] => format!("turned away by guard {guard}"),
        _ => format!("refused {}", told.0[0]),
    };
    let mut answer = [9; 4];
    let [scan, plain, read] = time(TURNS, [
        &mut || {
            ask_scan(scan::one, bytes, &record, counter, &mut told);
        },
        &mut || {
            ask_scan(scans::entries::scan, bytes, &record, counter, &mut rooms);
        },
        &mut || assert!(judge::read(black_box(bytes), black_box(&mut answer))),
    ]);
    println!(
        "{:<60} {scan:>11.0} {plain:>11.0} {:>6.2} {:>7.2} {read:>11.0}",
        format!("{name}, {} bytes, at step {step}: {kind}", bytes.len()),
        scan / plain,
        scan / read
    );
    scan / read
}

/// Scans at the first and at the last step of tables, accepted and turned away, there by the last guard.
fn bench_scans() {
    println!("{:<60} {:>38} {:>11}", "", "scan", "read");
    print!(
        "{:<60} {:>11} {:>11} {:>6}",
        "scan", "proved ns", "plain ns", "ratio"
    );
    println!(" {:>7} {:>11}", "by read", "proved ns");
    let (line, longest, guards, others) =
        (line(), longest(), guards_only(), guards_of_another_step());
    let ratios = [
        bench_scan("S1", S1, 1, [0; 6], 3),
        bench_scan("S1", S1, 1, [0; 6], 2),
        bench_scan("5 steps", &line, 1, [0; 6], 20),
        bench_scan("5 steps", &line, 1, [0; 6], 19),
        bench_scan("5 steps", &line, 5, [10, 10, 2, 0, 0, 0], 1),
        bench_scan("5 steps", &line, 5, [10, 10, 1, 0, 0, 0], 1),
        bench_scan("the longest", &longest, 1, [0; 6], 4000),
        bench_scan("the longest", &longest, 1, [0, 0, 0, 1, 0, 0], 4000),
        bench_scan("the longest", &longest, 16, [0; 6], 4000),
        bench_scan("the longest", &longest, 16, [0, 0, 0, 1, 0, 0], 4000),
        bench_scan("the longest", &longest, 17, [0; 6], 4000),
        bench_scan("64 guards in a step", &guards, 1, [0; 6], 4000),
        bench_scan("64 guards in another step", &others, 1, [0; 6], 2000),
    ];
    let most = ratios.into_iter().fold(0.0, f64::max);
    println!("scan by read: at most {most:.2}");
}

/// The scans of a tray.
const TRAY: usize = 256;

type Tray = fn(&[u8], &[u16], &mut [u16], &mut [u16], &mut [u64]) -> bool;

/// Rooms that serve every tray.
#[derive(Debug, PartialEq)]
struct Trayed {
    answer: [u64; 4],
    running: Record,
    verdicts: [u16; TRAY],
}

impl Trayed {
    fn new() -> Trayed {
        Trayed {
            answer: [9; 4],
            running: [9; 8],
            verdicts: [9; TRAY],
        }
    }

    /// A tray of a record, which each call has anew.
    fn ask(&mut self, tray: Tray, bytes: &[u8], record: &Record, counters: &[u16]) {
        self.running = *black_box(record);
        assert!(tray(
            black_box(bytes),
            black_box(counters),
            &mut self.running,
            &mut self.verdicts,
            &mut self.answer
        ));
        black_box(self);
    }

    /// The same scans, given singly to the library, which leaves the record in memory from scan to scan.
    fn ask_singly(&mut self, bytes: &[u8], record: &Record, counters: &[u16]) {
        self.running = *black_box(record);
        let mut accepted = 0;
        for (i, &counter) in black_box(counters).iter().enumerate() {
            let (running, answer) = (&mut self.running, &mut self.answer);
            assert!(scan::one(black_box(bytes), counter, running, answer));
            self.verdicts[i] = self.answer[1] as u16;
            accepted += u64::from(self.answer[1] == 0);
        }
        self.answer = [0, accepted, 0, 0];
        black_box(self);
    }
}

/// A tray from step 1 and readings 0, by the ticks that pass before each scan: of the library and of plain Rust, and the same scans
/// given singly to the library. Tray by single scans.
fn bench_tray(name: &str, bytes: &[u8], ticks: impl Fn(usize) -> u16) -> f64 {
    // The counter starts again.
    let record = [1, 0, 0, 0, 0, 0, 0, 65500];
    let mut counter: u16 = record[7];
    let counters: [u16; TRAY] = std::array::from_fn(|i| {
        counter = counter.wrapping_add(ticks(i));
        counter
    });
    let [mut a, mut b, mut c] = std::array::from_fn(|_| Trayed::new());
    a.ask(tray::scan, bytes, &record, &counters);
    b.ask_singly(bytes, &record, &counters);
    c.ask(scans::entries::tray, bytes, &record, &counters);
    assert_eq!((&a, &a), (&b, &c));
    assert_eq!(a.answer[0], 0);
    let accepted = a.answer[1];
    let [tray, singly, plain] = time(TURNS, [
        &mut || a.ask(tray::scan, bytes, &record, &counters),
        &mut || b.ask_singly(bytes, &record, &counters),
        &mut || c.ask(scans::entries::tray, bytes, &record, &counters),
    ]);
    println!(
        "{:<60} {tray:>11.0} {plain:>11.0} {:>6.2} {:>9.3} {singly:>11.0}",
        format!("{name}, {} bytes: {accepted} accepted", bytes.len()),
        tray / plain,
        tray / singly
    );
    tray / singly
}

/// Trays of as many scans as there can be.
fn bench_trays() {
    println!("{:<60} {:>40} {:>11}", "", "tray", "singly");
    print!(
        "{:<60} {:>11} {:>11} {:>6}",
        "tray of 256 scans", "proved ns", "plain ns", "ratio"
    );
    println!(" {:>9} {:>11}", "by singly", "proved ns");
    bench_tray("S1", S1, |_| 3);
    bench_tray("5 steps", &line(), |i| [20, 5, 5, 3, 0][i % 5]);
    // A tick passes or not, in no order.
    let tossed = |i: usize| {
        let z = (i as u64 + 1).wrapping_mul(0x9e37_79b9_7f4a_7c15);
        ((z ^ (z >> 30)).wrapping_mul(0xbf58_476d_1ce4_e5b9) >> 63) as u16
    };
    let (each, first) = (waiting(false), waiting(true));
    let ratios = [
        bench_tray("4 guards in each step", &each, |_| 1),
        bench_tray("4 guards in each step", &each, tossed),
        bench_tray("64 guards in the first step", &first, |_| 1),
        bench_tray("64 guards in the first step", &first, |_| 0),
    ];
    let most = ratios.into_iter().fold(0.0, f64::max);
    println!("tray by single scans, 531 bytes: at most {most:.3}; the goal is 0.1");
}

type Convert = fn(&[u8], &mut [u8], &mut [u64]) -> bool;

/// A conversion, of the library and of plain Rust. The output.
fn bench_conversion(name: &str, input: &[u8], sides: [Convert; 2]) -> Vec<u8> {
    let [mut a, mut b] = [([9; 4], [9; cards::CARD]); 2];
    let convert = |side: Convert, rooms: &mut ([u64; 4], [u8; cards::CARD])| {
        assert!(side(black_box(input), &mut rooms.1, &mut rooms.0));
        black_box(rooms);
    };
    convert(sides[0], &mut a);
    convert(sides[1], &mut b);
    assert_eq!(a, b);
    let (kind, output) = match a.0 {
        [0, number, ..] => (format!("{number} bytes"), a.1[..number as usize].to_vec()),
        [number, ..] => (format!("refused {number}"), Vec::new()),
    };
    let times = time(TURNS, [&mut || convert(sides[0], &mut a), &mut || {
        convert(sides[1], &mut b)
    }]);
    show(&format!("{name}, {} bytes: {kind}", input.len()), &times);
    output
}

/// A table to its card, and the card to the table.
fn bench_card(name: &str, table: &[u8]) {
    let from = [card::from_table, cards::entries::from_table];
    let to = [card::to_table, cards::entries::to_table];
    let text = bench_conversion(&format!("table to card, {name}"), table, from);
    let again = bench_conversion(&format!("card to table, {name}"), &text, to);
    assert_eq!(table, again);
}

/// Cards up to the longest, and one that is all digits.
fn bench_cards() {
    println!(
        "{:<60} {:>11} {:>11} {:>6}",
        "card", "proved ns", "plain ns", "ratio"
    );
    bench_card("S1", S1);
    bench_card("5 steps", &line());
    bench_card("64 guards", &guards_only());
    bench_card("96 resets", &resets_only());
    bench_card("the longest", &longest());
    let digits = "9".repeat(cards::LONGEST - 14);
    let text = format!("timers 1\n1 < {digits}\n");
    let to = [card::to_table, cards::entries::to_table];
    bench_conversion("card to table, a long number", text.as_bytes(), to);
}

fn main() {
    println!(
        "{:<60} {:>30} {:>30} {:>9}",
        "", "from log-in", "in mid-shift", "log-in /"
    );
    print!("{:<60}", "question");
    for _ in 0..2 {
        print!(" {:>11} {:>11} {:>6}", "proved ns", "plain ns", "ratio");
    }
    println!(" {:>9}", "mid-shift");
    bench_read("S1, 11 bytes", S1);
    bench_read("324 bytes, 64 guards", &guards_only());
    bench_read("211 bytes, 96 resets", &resets_only());
    bench_read("531 bytes, the longest", &longest());
    bench_rounds("S2", S2);
    bench_rounds("S11", S11);
    bench_rounds("6 clocks, 16 steps, 64 guards", &largest());
    bench_rounds("6 clocks, 16 steps, 64 guards", &largest_with_an_end());
    bench_plan("S10 for 2", S10, 2);
    bench_plan("5 steps for 10", &line(), 10);
    bench_plan("S1 for 1,024", S1, 1024);
    bench_plan(
        "1 step, 64 exact guards, for 1,024",
        &crowded(EXACTLY, 3),
        1024,
    );
    bench_plan("1 step, 64 guards, for 1,024", &crowded(AT_LEAST, 3), 1024);
    bench_plan("2 steps, 64 guards, for 512: drifting", &drifting(), 512);
    bench_plan("6 steps, 64 guards, for 170: zigzag", &zigzag(None), 170);
    bench_plan(
        "6 steps, 64 guards, for 170: zigzag",
        &zigzag(Some(1000)),
        170,
    );
    bench_plan(
        "5 steps, 64 guards, for 204: descending",
        &descending(),
        204,
    );
    bench_plan("4 steps, 64 guards, for 256: staircase", &staircase(), 256);
    bench_plan("5 steps, 64 guards, for 204: receding", &receding(), 204);
    bench_plan("5 steps, 64 guards, for 204: recoiling", &recoiling(), 204);
    bench_plan("13 steps, 64 guards, for 78: braided", &braided(), 78);
    bench_demands("S10 for 2", S10, 2);
    bench_demands("the largest row", &crowded(EXACTLY, 3), 1024);
    println!();
    bench_panels();
    println!();
    bench_scans();
    println!();
    bench_trays();
    println!();
    bench_cards();
}
