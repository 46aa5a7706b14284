//! Times every entry of the libraries beside that of earlier archives, whose symbols begin with `before_`: in one program, in turn, the median
//! of many calls. The answers of both must be equal, with all rooms; which loop is written may differ, and is said. A line has the question
//! and the two times, with tabs between: bench/run makes a table of it, from four programs in which the code lies 16 bytes further on each.

mod clock;
#[path = "../plain/plain.rs"]
mod plain;
mod tables;

use clock::time;
use std::hint::black_box;
use tables::*;

/// An entry of the archives of now, and the same of those before.
macro_rules! entries {
    ($($name:ident $before:ident: fn($($argument:ty),*) -> $answer:ty;)*) => {
        extern "C" {
            $(fn $name($(_: $argument),*) -> $answer; fn $before($(_: $argument),*) -> $answer;)*
        }
    };
}

entries! {
    judge_read before_judge_read: fn(*const u8, usize, *mut u64, usize) -> bool;
    judge_rounds before_judge_rounds: fn(*const u8, usize, *mut u64, usize) -> bool;
    judge_rounds_mid_shift before_judge_rounds_mid_shift: fn(*const u8, usize, *mut u64, usize) -> bool;
    judge_plan before_judge_plan: fn(*const u8, usize, u64, *mut u64, usize, *mut u64, usize, *mut u64, usize, *mut u64, usize) -> bool;
    judge_plan_mid_shift before_judge_plan_mid_shift: fn(*const u8, usize, u64, *mut u64, usize, *mut u64, usize, *mut u64, usize, *mut u64, usize) -> bool;
    judge_demands before_judge_demands: fn(*const u8, usize, u64, *mut i64, usize, *mut u64, usize) -> bool;
    panel_windows before_panel_windows: fn(*const u8, usize, u64, *mut u8, usize, *mut f64, usize, *mut u64, usize) -> bool;
    panel_widest before_panel_widest: fn(*const u8, usize, u64) -> Widest;
    scan_one before_scan_one: fn(*const u8, usize, u16, *mut u16, usize, *mut u64, usize) -> bool;
    tray_scan before_tray_scan: fn(*const u8, usize, *const u16, usize, *mut u16, usize, *mut u16, usize, *mut u64, usize) -> bool;
    card_to_table before_card_to_table: fn(*const u8, usize, *mut u8, usize, *mut u64, usize) -> bool;
    card_from_table before_card_from_table: fn(*const u8, usize, *mut u8, usize, *mut u64, usize) -> bool;
}

extern "C" {
    /// So many bytes stand before all archives.
    fn place();
}

#[repr(C)]
#[derive(PartialEq, Debug, Clone, Copy)]
struct Widest {
    number: u64,
    place: u64,
    mark: u64,
    first: f64,
    last: f64,
}

type Short = unsafe extern "C" fn(*const u8, usize, *mut u64, usize) -> bool;

type Plan = unsafe extern "C" fn(*const u8, usize, u64, *mut u64, usize, *mut u64, usize, *mut u64, usize, *mut u64, usize) -> bool;

type Convert = unsafe extern "C" fn(*const u8, usize, *mut u8, usize, *mut u64, usize) -> bool;

/// A line: the times of before and now.
fn compare(question: &str, before: &mut dyn FnMut(), now: &mut dyn FnMut()) {
    let [before, now] = time(51, [before, now]);
    println!("{question}\t{before}\t{now}");
}

/// Both sides of a question that fills rooms: asked once each with rooms alike, then timed. `same` holds the rooms against each other.
fn rooms<R>(question: &str, new: impl Fn() -> R, before: impl Fn(&mut R), now: impl Fn(&mut R), same: impl Fn(&R, &R) -> &'static str) {
    let (mut old, mut young) = (new(), new());
    before(&mut old);
    now(&mut young);
    let word = same(&old, &young);
    compare(
        &format!("{question}{word}"),
        &mut || before(black_box(&mut old)),
        &mut || now(black_box(&mut young)),
    );
}

fn equal<R: PartialEq + std::fmt::Debug>(a: &R, b: &R) -> &'static str {
    assert_eq!(a, b);
    ""
}

fn short(question: &str, before: Short, now: Short, bytes: &[u8]) {
    let ask = |entry: Short| move |answer: &mut [u64; 4]| unsafe { assert!(entry(black_box(bytes.as_ptr()), bytes.len(), answer.as_mut_ptr(), 4)) };
    rooms(question, || [9; 4], ask(before), ask(now), equal);
}

type PlanRooms = ([u64; 1024], [u64; 6], [u64; 1031], [u64; 4]);

fn plan(question: &str, before: Plan, now: Plan, bytes: &[u8], k: u64) {
    let ask = |entry: Plan| {
        move |(times, starts, room, answer): &mut PlanRooms| unsafe {
            let (t, s, r) = (times.as_mut_ptr(), starts.as_mut_ptr(), room.as_mut_ptr());
            assert!(entry(black_box(bytes.as_ptr()), bytes.len(), k, t, 1024, s, 6, r, 1031, answer.as_mut_ptr(), 4))
        }
    };
    let same = |a: &PlanRooms, b: &PlanRooms| {
        assert_eq!((a.0, a.1, &a.3[..2]), (b.0, b.1, &b.3[..2]));
        let looped = a.3[1] == 1;
        assert!(looped || a == b);
        if a == b { "" } else { ", another loop" }
    };
    rooms(question, || ([9; 1024], [9; 6], [9; 1031], [9; 4]), ask(before), ask(now), same);
}

fn demands(question: &str, bytes: &[u8], k: u64) {
    type Rooms = (Vec<i64>, [u64; 4]);
    let new = || (vec![9; 4 * 132108], [9; 4]);
    macro_rules! ask {
        ($entry:ident) => {
            |(row, answer): &mut Rooms| unsafe { assert!($entry(black_box(bytes.as_ptr()), bytes.len(), k, row.as_mut_ptr(), row.len(), answer.as_mut_ptr(), 4)) }
        };
    }
    rooms(question, new, ask!(before_judge_demands), ask!(judge_demands), equal);
}

fn panel(name: &str, bytes: &[u8], k: u64) {
    type Rooms = ([u8; 1024], [f64; 2048], [u64; 4]);
    macro_rules! ask {
        ($entry:ident) => {
            |(marks, times, answer): &mut Rooms| unsafe {
                assert!($entry(black_box(bytes.as_ptr()), bytes.len(), k, marks.as_mut_ptr(), 1024, times.as_mut_ptr(), 2048, answer.as_mut_ptr(), 4))
            }
        };
    }
    let question = format!("windows, {name}");
    rooms(&question, || ([9; 1024], [9.0; 2048], [9; 4]), ask!(before_panel_windows), ask!(panel_windows), equal);
    macro_rules! widest {
        ($entry:ident) => {
            |answer: &mut Widest| *answer = unsafe { $entry(black_box(bytes.as_ptr()), bytes.len(), k) }
        };
    }
    let none = || Widest { number: 9, place: 9, mark: 9, first: 9.0, last: 9.0 };
    rooms(&format!("widest, {name}"), none, widest!(before_panel_widest), widest!(panel_widest), equal);
}

fn scans(name: &str, bytes: &[u8]) {
    type Rooms = ([u16; 8], [u64; 4]);
    macro_rules! ask {
        ($entry:ident) => {
            |(running, answer): &mut Rooms| unsafe {
                *running = [1, 0, 0, 0, 0, 0, 0, 0];
                assert!($entry(black_box(bytes.as_ptr()), bytes.len(), 3, running.as_mut_ptr(), 8, answer.as_mut_ptr(), 4))
            }
        };
    }
    rooms(&format!("scan, {name}"), || ([0; 8], [9; 4]), ask!(before_scan_one), ask!(scan_one), equal);
    type Tray = ([u16; 8], [u16; 256], [u64; 4]);
    let counters: [u16; 256] = std::array::from_fn(|i| 3 * i as u16);
    macro_rules! tray {
        ($entry:ident) => {
            |(running, verdicts, answer): &mut Tray| unsafe {
                *running = [1, 0, 0, 0, 0, 0, 0, 0];
                let (r, v) = (running.as_mut_ptr(), verdicts.as_mut_ptr());
                assert!($entry(black_box(bytes.as_ptr()), bytes.len(), counters.as_ptr(), 256, r, 8, v, 256, answer.as_mut_ptr(), 4))
            }
        };
    }
    rooms(&format!("tray, {name}"), || ([0; 8], [9; 256], [9; 4]), tray!(before_tray_scan), tray!(tray_scan), equal);
}

fn cards(name: &str, bytes: &[u8]) {
    type Rooms = (Vec<u8>, [u64; 4]);
    let new = || (vec![9; 1405], [9; 4]);
    let convert = |question: &str, before: Convert, now: Convert, input: &[u8]| {
        let ask = |entry: Convert| {
            move |(output, answer): &mut Rooms| unsafe { assert!(entry(black_box(input.as_ptr()), input.len(), output.as_mut_ptr(), 1405, answer.as_mut_ptr(), 4)) }
        };
        rooms(question, new, ask(before), ask(now), equal);
        let mut given = new();
        ask(now)(&mut given);
        given.0[..given.1[1] as usize].to_vec()
    };
    let card = convert(&format!("table to card, {name}"), before_card_from_table, card_from_table, bytes);
    convert(&format!("card to table, {name}"), before_card_to_table, card_to_table, &card);
}

fn main() {
    black_box(place as *const ());
    let few = [("S1", S1.to_vec()), ("5 steps", line()), ("the longest", longest()), ("64 guards in a step", guards_only())];
    for (name, bytes) in &few {
        short(&format!("read, {name}"), before_judge_read, judge_read, bytes);
    }
    for (name, bytes) in [("S2", S2.to_vec()), ("S11", S11.to_vec()), ("the largest", largest()), ("with an end", largest_with_an_end())] {
        short(&format!("rounds, {name}"), before_judge_rounds, judge_rounds, &bytes);
        short(&format!("rounds in mid-shift, {name}"), before_judge_rounds_mid_shift, judge_rounds_mid_shift, &bytes);
    }
    let two = [("S1 for 2", S1.to_vec(), 2), ("S2 for 2", S2.to_vec(), 2), ("S11 for 2", S11.to_vec(), 2)];
    for (name, bytes, k) in two.into_iter().chain(tables::rounds()) {
        plan(&format!("plan, {name}"), before_judge_plan, judge_plan, &bytes, k);
        plan(&format!("plan in mid-shift, {name}"), before_judge_plan_mid_shift, judge_plan_mid_shift, &bytes, k);
        panel(name, &bytes, k);
    }
    demands("demands, S10 for 2", S10, 2);
    demands("demands, the largest row", &crowded(EXACTLY, 3), 1024);
    for (name, bytes) in &few {
        scans(name, bytes);
        cards(name, bytes);
    }
}
