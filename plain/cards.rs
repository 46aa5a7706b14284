//! Card to table and table to card in plain Rust, by the words of 02. The proved library is compared with it, in what it answers
//! (terminal/compare.rs) and in how long it takes (bench/bench.rs).
//!
//! A card's timer is a clock of plain.rs, its bound a guard, and "zero" a reset.

use crate::plain::{
    go_through, Fault, Guard, Refusal, Relation, Take, CLOCKS, CONSTANT, GUARDS, STEPS,
};

/// The most bytes of a card's text.
pub const LONGEST: usize = 16_384;
/// The most bytes of an accepted card, and of its table.
pub const CARD: usize = 1405;
pub const TABLE: usize = 531;

/// What a number that is larger is held at. It is out of every range.
const HELD: u32 = 65_536;

/// A line of a card.
enum Line {
    Timers(u32),
    Bound(u32, Relation, u32),
    Zero(u32),
    Step,
    End,
}

/// The table of a card.
pub fn to_table(card: &[u8]) -> Result<Vec<u8>, Refusal> {
    let refuse = |fault, place| Err(Refusal { fault, place });
    if card.len() > LONGEST {
        return refuse(Fault::Card, LONGEST);
    }
    let mut table = Vec::with_capacity(TABLE);
    let (mut clocks, mut guards, mut steps) = (0, 0, 0);
    // Whether a bound or zero stands since the last finished step, and the clocks reset since then, as bits.
    let (mut open, mut reset) = (false, 0u8);
    let mut rest = card;
    loop {
        let place = card.len() - rest.len();
        if rest.is_empty() {
            return refuse(Fault::Cut, place);
        }
        let Some((line, next)) = first_line(rest) else {
            return refuse(Fault::Card, place);
        };
        rest = next;
        if matches!(line, Line::Timers(_)) != (place == 0) {
            return refuse(Fault::Head, place);
        }
        match line {
            Line::Timers(n) => {
                if !(1..=CLOCKS as u32).contains(&n) {
                    return refuse(Fault::Head, place);
                }
                clocks = n;
                table.extend([1, n as u8]);
            }
            Line::Bound(clock, relation, constant) => {
                if guards == GUARDS {
                    return refuse(Fault::Bounds, place);
                }
                if !(1..=clocks).contains(&clock) {
                    return refuse(Fault::Timer, place);
                }
                if constant > CONSTANT.into() {
                    return refuse(Fault::Constant, place);
                }
                guards += 1;
                open = true;
                let [low, high] = (constant as u16).to_le_bytes();
                table.extend([2, clock as u8, relation as u8, low, high]);
            }
            Line::Zero(clock) => {
                if !(1..=clocks).contains(&clock) {
                    return refuse(Fault::Timer, place);
                }
                if reset >> clock & 1 == 1 {
                    return refuse(Fault::Twice, place);
                }
                open = true;
                reset |= 1 << clock;
                table.extend([3, clock as u8]);
            }
            Line::Step => {
                if steps == STEPS {
                    return refuse(Fault::Steps, place);
                }
                steps += 1;
                (open, reset) = (false, 0);
                table.push(4);
            }
            Line::End => {
                if steps == 0 || open {
                    return refuse(Fault::Steps, place);
                }
                if !rest.is_empty() {
                    return refuse(Fault::Tail, card.len() - rest.len());
                }
                table.push(5);
                return Ok(table);
            }
        }
    }
}

/// The first line of a text, and what follows its line feed; None where it is a wrong line.
fn first_line(text: &[u8]) -> Option<(Line, &[u8])> {
    if let Some(rest) = text.strip_prefix(b"timers ") {
        let (n, rest) = number(rest)?;
        Some((Line::Timers(n), rest.strip_prefix(b"\n")?))
    } else if let Some(rest) = text.strip_prefix(b"zero ") {
        let (clock, rest) = number(rest)?;
        Some((Line::Zero(clock), rest.strip_prefix(b"\n")?))
    } else if let Some(rest) = text.strip_prefix(b"step\n") {
        Some((Line::Step, rest))
    } else if let Some(rest) = text.strip_prefix(b"end\n") {
        Some((Line::End, rest))
    } else {
        let (clock, rest) = number(text)?;
        let (relation, rest) = sign(rest)?;
        let (constant, rest) = number(rest)?;
        let bound = Line::Bound(clock, relation, constant);
        Some((bound, rest.strip_prefix(b"\n")?))
    }
}

/// The decimal number that a text begins with, held at `HELD`, and what follows it; None without one, or with a leading zero.
fn number(text: &[u8]) -> Option<(u32, &[u8])> {
    let (mut value, mut rest) = (0, text);
    while let [digit @ b'0'..=b'9', tail @ ..] = rest {
        value = (10 * value + u32::from(digit - b'0')).min(HELD);
        rest = tail;
    }
    match text[..text.len() - rest.len()] {
        [] | [b'0', _, ..] => None,
        _ => Some((value, rest)),
    }
}

/// The sign that a text begins with, a blank on either side, and what follows.
fn sign(text: &[u8]) -> Option<(Relation, &[u8])> {
    match text {
        [b' ', b'<', b' ', rest @ ..] => Some((Relation::Under, rest)),
        [b' ', b'<', b'=', b' ', rest @ ..] => Some((Relation::AtMost, rest)),
        [b' ', b'=', b' ', rest @ ..] => Some((Relation::Exactly, rest)),
        [b' ', b'>', b'=', b' ', rest @ ..] => Some((Relation::AtLeast, rest)),
        [b' ', b'>', b' ', rest @ ..] => Some((Relation::Over, rest)),
        _ => None,
    }
}

/// The card of a table.
pub fn from_table(table: &[u8]) -> Result<Vec<u8>, Refusal> {
    let mut card = Card(Vec::with_capacity(CARD));
    go_through(table, &mut card)?;
    card.0.extend(b"end\n");
    Ok(card.0)
}

/// The lines of a card before its end. The records of a table add to it.
struct Card(Vec<u8>);

impl Take for Card {
    fn head(&mut self, clocks: u8) {
        self.0.extend(b"timers ");
        self.0.extend(&[digit(clocks.into()), b'\n']);
    }

    fn guard(&mut self, guard: Guard) {
        self.0.push(digit(guard.clock.into()));
        match guard.relation {
            Relation::Under => self.0.extend(b" < "),
            Relation::AtMost => self.0.extend(b" <= "),
            Relation::Exactly => self.0.extend(b" = "),
            Relation::AtLeast => self.0.extend(b" >= "),
            Relation::Over => self.0.extend(b" > "),
        }
        for unit in [1000, 100, 10] {
            if guard.constant >= unit {
                self.0.push(digit(guard.constant / unit % 10));
            }
        }
        self.0.extend(&[digit(guard.constant % 10), b'\n']);
    }

    fn reset(&mut self, clock: u8) {
        self.0.extend(b"zero ");
        self.0.extend(&[digit(clock.into()), b'\n']);
    }

    fn step(&mut self, _: u8) {
        self.0.extend(b"step\n");
    }
}

/// A number below 10 in decimal.
fn digit(number: u16) -> u8 {
    b'0' + number as u8
}

/// Puts what a conversion gives in the first places of a room, where there are enough. How many bytes it is.
pub fn put(converted: Result<Vec<u8>, Refusal>, room: &mut [u8]) -> Result<usize, Refusal> {
    let bytes = converted?;
    let Some(first) = room.get_mut(..bytes.len()) else {
        return Err(Refusal {
            fault: Fault::Output,
            place: 0,
        });
    };
    first.copy_from_slice(&bytes);
    Ok(bytes.len())
}

/// Both in the form of the C interface (terminal/card.h): the answer in the first four places of a lent row; false, and nothing done,
/// where it has fewer.
pub mod entries {
    use super::Refusal;

    fn give(answer: &mut [u64], convert: impl FnOnce() -> Result<usize, Refusal>) -> bool {
        let Some(first) = answer.first_chunk_mut() else {
            return false;
        };
        *first = match convert() {
            Ok(number) => [0, number as u64, 0, 0],
            Err(refusal) => [refusal.fault as u64, refusal.place as u64, 0, 0],
        };
        true
    }

    pub fn to_table(card: &[u8], table: &mut [u8], answer: &mut [u64]) -> bool {
        give(answer, || super::put(super::to_table(card), table))
    }

    pub fn from_table(table: &[u8], card: &mut [u8], answer: &mut [u64]) -> bool {
        give(answer, || super::put(super::from_table(table), card))
    }
}
