//! Lines "of any other form or place, or a missing 82". Each [`Spoil`] is one
//! way; a session has one of them in turn, so that few sessions have all.

use super::rng::Rng;
use std::ops::Range;

#[derive(Clone, Copy, Debug)]
pub enum Spoil {
    /// A strange line among the calls, or in the table.
    StrangeCall,
    StrangeFrame,
    /// No table, or no line at all.
    NoTable,
    NoLine,
    /// A table line among the calls, or a call among the table lines.
    FrameAmongCalls,
    CallAmongFrames,
    /// A value lost, the last values lost, a value too many.
    LostValue,
    LostEnd,
    SurplusValue,
    /// A digit of a call that begins so, in a flag or field that is not named.
    Unnamed(&'static [u8], usize),
    /// One line spoiled.
    Odd,
    OneMore,
    TooLong,
    Empty,
    Return,
    LowerCase,
    StrangeByte,
}

/// All ways, to be taken in turn.
pub fn all() -> Vec<Spoil> {
    /// The digits in flags and fields that a call does not name.
    const UNNAMED: [(&[u8], &[usize]); 4] = [
        (b"80", &[3, 12, 16, 23]),
        (b"81", &[16, 23]),
        (b"82", &[2, 7, 19, 20]),
        (b"83", &[3, 15, 19, 20]),
    ];
    let mut all = vec![
        Spoil::StrangeCall,
        Spoil::StrangeFrame,
        Spoil::NoTable,
        Spoil::NoLine,
        Spoil::FrameAmongCalls,
        Spoil::CallAmongFrames,
        Spoil::LostValue,
        Spoil::LostEnd,
        Spoil::SurplusValue,
        Spoil::Odd,
        Spoil::OneMore,
        Spoil::TooLong,
        Spoil::Empty,
        Spoil::Return,
        Spoil::LowerCase,
        Spoil::StrangeByte,
    ];
    for (kind, digits) in UNNAMED {
        all.extend(digits.iter().map(|&digit| Spoil::Unnamed(kind, digit)));
    }
    all
}

/// Lines that are wrong by their form or, after the table, by their place.
const STRANGE: [&[u8]; 16] = [
    b"",
    b"8",
    b"80000",
    b"83\r",
    b"8g",
    b"84",
    b"7F",
    b"C0",
    b"0100",
    b"820000000001",
    b"80zz",
    b"83 ",
    b" 83",
    b"830000000001000000000000FF",
    b"\x00\xFF",
    b"810",
];

impl Spoil {
    /// Spoils the lines of a session, the first `table` of which are those of
    /// the table; `None` if they hold nothing to be spoiled so.
    pub fn apply(self, rng: &mut Rng, lines: &mut Vec<Vec<u8>>, table: usize) -> Option<()> {
        match self {
            Spoil::StrangeCall => insert_strange(rng, lines, table..lines.len() + 1),
            Spoil::StrangeFrame => insert_strange(rng, lines, 0..table + 1),
            Spoil::NoTable => drop(lines.drain(..table)),
            Spoil::NoLine => lines.clear(),
            Spoil::FrameAmongCalls => {
                let line = lines.remove(rng.below(table));
                lines.insert(rng.between(table, lines.len()), line);
            }
            Spoil::CallAmongFrames => {
                let line = lines.remove(pick(rng, lines, b"8")?);
                lines.insert(rng.below(table), line);
            }
            Spoil::LostValue => drop(lines.remove(pick(rng, lines, b"82")?)),
            Spoil::LostEnd => lines.truncate(pick(rng, lines, b"82")?),
            Spoil::SurplusValue => {
                let place = pick(rng, lines, b"82")?;
                lines.insert(place, lines[place].clone());
            }
            Spoil::Unnamed(kind, digit) => {
                let line = pick(rng, lines, kind)?;
                lines[line].resize(24, b'0');
                lines[line][digit] = rng.pick(b"18F");
            }
            _ => {
                // A malformed line ends the session, so later ones matter more.
                let place = if rng.chance(20) {
                    rng.below(table)
                } else {
                    rng.between(table, lines.len() - 1)
                };
                self.spoil_line(rng, &mut lines[place])?;
            }
        }
        Some(())
    }

    fn spoil_line(self, rng: &mut Rng, line: &mut Vec<u8>) -> Option<()> {
        match self {
            Spoil::Odd => drop(line.pop()),
            Spoil::OneMore => line.push(b'0'),
            Spoil::TooLong => line.resize(rng.pick(&[25, 26, 26, 26, 48]), b'0'),
            Spoil::Empty => line.clear(),
            Spoil::Return => line.push(b'\r'),
            Spoil::LowerCase => {
                let letters: Vec<usize> =
                    (0..line.len()).filter(|&p| line[p].is_ascii_uppercase()).collect();
                line[rng.pick_any(&letters)?].make_ascii_lowercase();
            }
            _ => {
                let place = rng.below(line.len());
                line[place] = rng.pick(b"gG/:@`xX \t\0\xFFabcdef");
            }
        }
        Some(())
    }
}

/// Puts a strange line at one of the places.
fn insert_strange(rng: &mut Rng, lines: &mut Vec<Vec<u8>>, places: Range<usize>) {
    let place = rng.between(places.start, places.end - 1);
    lines.insert(place, rng.pick(&STRANGE).to_vec());
}

/// One of the lines that begin so.
fn pick(rng: &mut Rng, lines: &[Vec<u8>], start: &[u8]) -> Option<usize> {
    let places: Vec<usize> = (0..lines.len()).filter(|&p| lines[p].starts_with(start)).collect();
    rng.pick_any(&places)
}
