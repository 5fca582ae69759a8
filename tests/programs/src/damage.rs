//! Texts as a disk or a hand leaves them: numbers in columns, damaged.

use crate::run::Run;
use second::random::Random;
use std::fmt::Write;

pub const WIDTH: usize = 11;
pub const MEGABYTE: usize = 1 << 20;

/// Inputs of each kind of damage, and of two kinds together.
const DAMAGED: u64 = 30;
const DAMAGED_TWICE: u64 = 150;

/// An input as numbers.
pub trait Input {
    fn text(&self) -> Vec<u8>;
}

/// The numbers, each in 11 columns, and LF.
pub fn put_line(text: &mut String, numbers: &[u32]) {
    for n in numbers {
        write!(text, "{n:>WIDTH$}").expect("a string takes every text");
    }
    text.push('\n');
}

/// How a text is damaged. False: this one has no place for it.
pub enum Make<I> {
    /// As many bytes as before.
    Bytes(fn(&mut Random, &mut [u8]) -> bool),
    /// Bytes or lines come, go or move.
    Text(fn(&mut Random, &mut Vec<u8>) -> bool),
    /// Numbers changed, or lines with their count.
    Numbers(fn(&mut Random, &mut I) -> bool),
    /// A text from nothing.
    Whole(fn(&mut Random) -> Vec<u8>),
}
use Make::{Bytes, Numbers, Text, Whole};

pub struct Damage<I> {
    name: &'static str,
    make: Make<I>,
    /// The refusal of every such text, whatever else it holds.
    refusal: Option<u32>,
}

/// What no text of good form has.
pub const fn fatal<I>(name: &'static str, make: Make<I>) -> Damage<I> {
    refused(name, 14, make)
}

pub const fn refused<I>(name: &'static str, refusal: u32, make: Make<I>) -> Damage<I> {
    Damage {
        name,
        make,
        refusal: Some(refusal),
    }
}

/// What may leave a text of good form.
pub const fn open<I>(name: &'static str, make: Make<I>) -> Damage<I> {
    Damage {
        name,
        make,
        refusal: None,
    }
}

/// The damages of every text of numbers.
pub fn common<I>() -> Vec<Damage<I>> {
    vec![
        // A disk's.
        open("a byte changed", Bytes(byte_changed)),
        open("a bit flipped", Bytes(bit_flipped)),
        open("a digit changed", Bytes(digit_changed)),
        open("a stretch written over by another", Bytes(stretch_repeated)),
        fatal("a stretch lost to zeros", Bytes(stretch_zeroed)),
        fatal("a byte too many", Text(byte_appended)),
        fatal("a byte inserted", Text(byte_inserted)),
        fatal("a byte lost", Text(byte_lost)),
        fatal("cut anywhere", Text(cut)),
        fatal("cut at the end of a line", Text(cut_at_line)),
        fatal("empty", Whole(|_| Vec::new())),
        fatal("the whole text twice", Text(text_doubled)),
        // Lines.
        fatal("a line cut short", Text(line_cut)),
        fatal("a line doubled", Text(line_doubled)),
        fatal("a line missing", Text(line_missing)),
        fatal("the last line missing", Text(last_line_missing)),
        fatal("a line left over", Text(line_left_over)),
        open("a line moved", Text(line_moved)),
        fatal("two lines joined", Text(lines_joined)),
        fatal("a blank line", Text(blank_line)),
        fatal("a comment", Text(comment)),
        fatal("a space at the end of a line", Text(trailing_space)),
        fatal("no last LF", Text(no_last_lf)),
        fatal("CRLF", Text(crlf)),
        fatal("CRLF in one line", Text(crlf_once)),
        fatal("CR for LF", Bytes(cr_for_lf)),
        // Numbers.
        fatal("a tab for a space", Bytes(tab)),
        fatal("a leading zero", Bytes(leading_zero)),
        fatal("zeros for all spaces of a number", Bytes(padded_with_zeros)),
        fatal("a plus", Bytes(plus)),
        fatal("a minus", Bytes(minus)),
        fatal("11 digits", Bytes(eleven_digits)),
        fatal("4,294,967,296", Bytes(just_too_large)),
        fatal("10 digits, too large", Bytes(too_large)),
        fatal("no number", Bytes(no_number)),
        fatal("a number left-justified", Bytes(left_justified)),
        fatal("a space for a digit", Bytes(digit_blanked)),
        fatal("a number as a hand writes it", Bytes(hand_written)),
        fatal("a letter for a digit", Bytes(letter)),
        fatal("numbers one space apart", Text(packed)),
        // Encodings.
        fatal("a byte order mark", Text(byte_order_mark)),
        fatal("two bytes a character", Text(two_bytes)),
        // Lengths.
        fatal("1 MB of spaces behind a good text", Text(spaces_behind)),
    ]
}

impl<I: Input> Damage<I> {
    /// A damaged text. None if the good one has no place for the damage.
    fn make(&self, r: &mut Random, base: fn(&mut Random) -> I) -> Option<Vec<u8>> {
        let mut input = base(r);
        match &self.make {
            Bytes(_) | Text(_) => {
                let good = input.text();
                let mut text = good.clone();
                (self.put(r, &mut text) && text != good).then_some(text)
            }
            Numbers(damage) => damage(r, &mut input).then(|| input.text()),
            Whole(make) => Some(make(r)),
        }
    }

    /// Damages a text of any form. False: it has no place for the damage.
    pub fn put(&self, r: &mut Random, text: &mut Vec<u8>) -> bool {
        match &self.make {
            _ if text.is_empty() => false,
            Bytes(damage) => damage(r, text),
            Text(damage) => damage(r, text),
            _ => false,
        }
    }
}

/// The damages of one program's inputs.
pub struct Damages<I> {
    /// An input of good form.
    pub base: fn(&mut Random) -> I,
    pub list: Vec<Damage<I>>,
}

impl<I: Input> Damages<I> {
    /// One input with this damage.
    fn one(&self, run: &mut Run, r: &mut Random, damage: &Damage<I>) -> Result<(), String> {
        let text = (0..200)
            .find_map(|_| damage.make(r, self.base))
            .ok_or("never occurred")?;
        match damage.refusal {
            Some(number) => run.refused(r, &text, number),
            None => run.compare(r, &text).map(|_| ()),
        }
    }

    /// Two damages, the second to the text that the first left.
    fn two(&self, run: &mut Run, r: &mut Random) -> Result<(), String> {
        let first = &self.list[r.below(self.list.len())];
        let Some(mut text) = first.make(r, self.base) else {
            return Ok(());
        };
        self.list[r.below(self.list.len())].put(r, &mut text);
        run.compare(r, &text).map(|_| ())
    }

    /// Each kind of damage as a test of its own, then two together, then one
    /// text with each of its bytes changed.
    pub fn run(&self, run: &mut Run) {
        let before = run.seen.inputs;
        for (i, damage) in self.list.iter().enumerate() {
            let name = format!("damage: {}", damage.name);
            run.test(&name, |run| {
                run.cases(20 + i as u64, DAMAGED, |run, r| self.one(run, r, damage))
            });
        }
        run.test("damage of two kinds", |run| {
            run.cases(17, DAMAGED_TWICE, |run, r| self.two(run, r))
        });
        run.test("damage: each byte of an example changed", |run| {
            run.cases(18, 1, each_byte)
        });
        run.seen.damaged = run.seen.inputs - before;
    }
}

/// Each byte of a good input changed, one at a time.
fn each_byte(run: &mut Run, r: &mut Random) -> Result<(), String> {
    let good = run.program.good;
    for at in 0..good.len() {
        let mut text = good.to_vec();
        while text == good {
            text[at] = other_byte(r);
        }
        run.compare(r, &text)?;
    }
    Ok(())
}

/// Start and length of each line, LF included.
fn lines(text: &[u8]) -> Vec<(usize, usize)> {
    let mut start = 0;
    let mut lines = Vec::new();
    for line in text.split_inclusive(|&c| c == b'\n') {
        lines.push((start, line.len()));
        start += line.len();
    }
    lines
}

/// A line; in half of the cases one of the first three.
fn line(r: &mut Random, text: &[u8]) -> (usize, usize) {
    let lines = lines(text);
    let most = if r.one_in(2) {
        lines.len().min(3)
    } else {
        lines.len()
    };
    lines[r.below(most)]
}

/// A number's columns.
fn field<'a>(r: &mut Random, text: &'a mut [u8]) -> Option<&'a mut [u8]> {
    let (start, len) = line(r, text);
    let fields = len / WIDTH;
    if fields == 0 {
        return None;
    }
    let at = start + r.below(fields) * WIDTH;
    text.get_mut(at..at + WIDTH)
}

/// The columns of a number with spaces ahead of it, and where its digits begin.
fn number<'a>(r: &mut Random, text: &'a mut [u8]) -> Option<(&'a mut [u8], usize)> {
    let field = field(r, text)?;
    let spaces = field.iter().take_while(|&&c| c == b' ').count();
    (1..WIDTH).contains(&spaces).then_some((field, spaces))
}

/// Puts the text right-justified into a number's columns.
fn put(r: &mut Random, text: &mut [u8], number: &str) -> bool {
    let Some(field) = field(r, text) else {
        return false;
    };
    field.copy_from_slice(format!("{number:>WIDTH$}").as_bytes());
    true
}

/// Puts a byte for the last space ahead of a number.
fn put_ahead(r: &mut Random, text: &mut [u8], byte: u8) -> bool {
    let Some((field, first)) = number(r, text) else {
        return false;
    };
    field[first - 1] = byte;
    true
}

/// One that a text has, or any.
fn other_byte(r: &mut Random) -> u8 {
    let any = r.next() as u8;
    r.pick(&[b' ', b'\n', b'0', b'1', b'9', 0, any, any])
}

fn byte_changed(r: &mut Random, text: &mut [u8]) -> bool {
    let at = r.below(text.len());
    text[at] = other_byte(r);
    true
}

fn bit_flipped(r: &mut Random, text: &mut [u8]) -> bool {
    let at = r.below(text.len());
    text[at] ^= 1 << r.below(8);
    true
}

fn digit_changed(r: &mut Random, text: &mut [u8]) -> bool {
    let Some((field, first)) = number(r, text) else {
        return false;
    };
    field[r.within(first, WIDTH - 1)] = b'0' + r.below(10) as u8;
    true
}

fn stretch_repeated(r: &mut Random, text: &mut [u8]) -> bool {
    let len = r.within(1, 64.min(text.len()));
    let from = r.below(text.len() - len + 1);
    let to = r.below(text.len() - len + 1);
    text.copy_within(from..from + len, to);
    true
}

fn stretch_zeroed(r: &mut Random, text: &mut [u8]) -> bool {
    let from = r.below(text.len());
    let to = text.len().min(from + r.edge(1, 512));
    text[from..to].fill(0);
    true
}

fn byte_appended(r: &mut Random, text: &mut Vec<u8>) -> bool {
    let any = r.next() as u8;
    text.push(r.pick(&[b'\n', b' ', b'0', 0, 0x1A, any]));
    true
}

fn byte_inserted(r: &mut Random, text: &mut Vec<u8>) -> bool {
    let byte = other_byte(r);
    text.insert(r.below(text.len() + 1), byte);
    true
}

fn byte_lost(r: &mut Random, text: &mut Vec<u8>) -> bool {
    text.remove(r.below(text.len()));
    true
}

fn cut(r: &mut Random, text: &mut Vec<u8>) -> bool {
    text.truncate(r.below(text.len()));
    true
}

fn cut_at_line(r: &mut Random, text: &mut Vec<u8>) -> bool {
    let (start, _) = line(r, text);
    text.truncate(start);
    true
}

fn text_doubled(_: &mut Random, text: &mut Vec<u8>) -> bool {
    text.extend_from_within(..);
    true
}

fn line_cut(r: &mut Random, text: &mut Vec<u8>) -> bool {
    let (start, len) = line(r, text);
    if len < 2 {
        return false;
    }
    let kept = r.edge(0, len - 2);
    text.drain(start + kept..start + len - 1);
    true
}

fn line_doubled(r: &mut Random, text: &mut Vec<u8>) -> bool {
    let (start, len) = line(r, text);
    let copy = text[start..start + len].to_vec();
    text.splice(start..start, copy);
    true
}

fn line_missing(r: &mut Random, text: &mut Vec<u8>) -> bool {
    let (start, len) = line(r, text);
    text.drain(start..start + len);
    true
}

fn last_line_missing(_: &mut Random, text: &mut Vec<u8>) -> bool {
    let (start, _) = *lines(text).last().expect("a text has a line");
    text.truncate(start);
    true
}

fn line_left_over(r: &mut Random, text: &mut Vec<u8>) -> bool {
    let delivery: &[u32] = &[80, 100, 2_000];
    let five: &[u32] = &[1, 30, 0, 0, 0];
    for n in r.pick(&[delivery, five, &[0]]) {
        text.extend(format!("{n:>WIDTH$}").into_bytes());
    }
    text.push(b'\n');
    true
}

fn line_moved(r: &mut Random, text: &mut Vec<u8>) -> bool {
    let (start, len) = line(r, text);
    let moved: Vec<u8> = text.drain(start..start + len).collect();
    if text.is_empty() {
        return false;
    }
    let (to, _) = line(r, text);
    text.splice(to..to, moved);
    true
}

fn lines_joined(r: &mut Random, text: &mut Vec<u8>) -> bool {
    let (start, len) = line(r, text);
    let end = start + len - 1;
    match r.one_in(2) {
        true => text[end] = b' ',
        false => drop(text.remove(end)),
    }
    true
}

fn insert_at_line(r: &mut Random, text: &mut Vec<u8>, bytes: &[u8]) -> bool {
    let (start, _) = line(r, text);
    text.splice(start..start, bytes.iter().copied());
    true
}

fn blank_line(r: &mut Random, text: &mut Vec<u8>) -> bool {
    insert_at_line(r, text, b"\n")
}

fn comment(r: &mut Random, text: &mut Vec<u8>) -> bool {
    insert_at_line(r, text, b"# harvest\n")
}

fn trailing_space(r: &mut Random, text: &mut Vec<u8>) -> bool {
    let (start, len) = line(r, text);
    text.insert(start + len - 1, b' ');
    true
}

fn no_last_lf(_: &mut Random, text: &mut Vec<u8>) -> bool {
    text.pop() == Some(b'\n')
}

fn crlf(_: &mut Random, text: &mut Vec<u8>) -> bool {
    let lines = text.split_inclusive(|&c| c == b'\n');
    *text = lines
        .flat_map(|line| match line.strip_suffix(b"\n") {
            Some(start) => [start, b"\r\n"].concat(),
            None => line.to_vec(),
        })
        .collect();
    true
}

fn crlf_once(r: &mut Random, text: &mut Vec<u8>) -> bool {
    let (start, len) = line(r, text);
    text.insert(start + len - 1, b'\r');
    true
}

fn cr_for_lf(r: &mut Random, text: &mut [u8]) -> bool {
    let once = r.one_in(2);
    let (start, len) = line(r, text);
    let range = if once {
        start..start + len
    } else {
        0..text.len()
    };
    for c in &mut text[range] {
        if *c == b'\n' {
            *c = b'\r';
        }
    }
    true
}

fn tab(r: &mut Random, text: &mut [u8]) -> bool {
    let Some((field, first)) = number(r, text) else {
        return false;
    };
    match r.one_in(2) {
        true => field[r.below(first)] = b'\t',
        false => field[..first].fill(b'\t'),
    }
    true
}

fn leading_zero(r: &mut Random, text: &mut [u8]) -> bool {
    put_ahead(r, text, b'0')
}

fn padded_with_zeros(r: &mut Random, text: &mut [u8]) -> bool {
    let Some((field, first)) = number(r, text) else {
        return false;
    };
    field[..first].fill(b'0');
    true
}

fn plus(r: &mut Random, text: &mut [u8]) -> bool {
    put_ahead(r, text, b'+')
}

fn minus(r: &mut Random, text: &mut [u8]) -> bool {
    put_ahead(r, text, b'-')
}

fn eleven_digits(r: &mut Random, text: &mut [u8]) -> bool {
    let number = r.edge(10_000_000_000, 99_999_999_999);
    put(r, text, &number.to_string())
}

fn just_too_large(r: &mut Random, text: &mut [u8]) -> bool {
    put(r, text, "4294967296")
}

fn too_large(r: &mut Random, text: &mut [u8]) -> bool {
    let number = r.edge(4_294_967_297, 9_999_999_999);
    put(r, text, &number.to_string())
}

fn no_number(r: &mut Random, text: &mut [u8]) -> bool {
    put(r, text, "")
}

fn left_justified(r: &mut Random, text: &mut [u8]) -> bool {
    let Some((field, first)) = number(r, text) else {
        return false;
    };
    field.rotate_left(r.within(1, first));
    true
}

fn digit_blanked(r: &mut Random, text: &mut [u8]) -> bool {
    let Some((field, first)) = number(r, text) else {
        return false;
    };
    // Without its first digit a number may still be one.
    if first + 1 == WIDTH {
        return false;
    }
    field[r.within(first + 1, WIDTH - 1)] = b' ';
    true
}

fn hand_written(r: &mut Random, text: &mut [u8]) -> bool {
    let number = r.pick(&[
        "1,000", "1.0", "1e3", "0x10", "-0", "00", "3/4", "1_000", "~3",
    ]);
    put(r, text, number)
}

fn letter(r: &mut Random, text: &mut [u8]) -> bool {
    let Some((field, first)) = number(r, text) else {
        return false;
    };
    // The two neighbours of the digits are letters to a careless reader too.
    field[r.within(first, WIDTH - 1)] = r.pick(b"OolI/:aF");
    true
}

fn packed(_: &mut Random, text: &mut Vec<u8>) -> bool {
    text.dedup_by(|later, earlier| *later == b' ' && *earlier == b' ');
    true
}

fn byte_order_mark(_: &mut Random, text: &mut Vec<u8>) -> bool {
    text.splice(0..0, *b"\xEF\xBB\xBF");
    true
}

fn two_bytes(_: &mut Random, text: &mut Vec<u8>) -> bool {
    *text = text.iter().flat_map(|&c| [c, 0]).collect();
    true
}

fn spaces_behind(_: &mut Random, text: &mut Vec<u8>) -> bool {
    text.resize(text.len() + MEGABYTE, b' ');
    true
}

/// The longest text, longer by so many bytes: its last line again and again, or
/// one byte.
pub fn lengthened(r: &mut Random, mut text: Vec<u8>, by: usize) -> Vec<u8> {
    let (start, _) = *lines(&text).last().expect("a text has a line");
    let line = text[start..].to_vec();
    match r.one_in(2) {
        true => text.resize(text.len() + by, r.pick(&[b'\n', b' ', 0])),
        false => text.extend(line.iter().cycle().take(by)),
    }
    text
}
