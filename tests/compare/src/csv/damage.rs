//! Weighbridge files damaged as a disk or a hand damages them.

use super::file::{is_quoted, number_text, quoted, File, Record, CRLF, LF, LIMITS, NAMES};
use second::random::Random;
use std::ops::Range;

/// A broken quote in a field.
#[derive(Clone, Copy, Debug, PartialEq, Eq)]
pub enum Quote {
    /// Inside an unquoted field.
    Inside,
    AtTheEnd,
    /// These bytes after the closing quote.
    Behind(&'static [u8]),
    NeverClosed,
    /// The text cut just after the opening quote.
    Cut,
}

/// A needed name that is another.
#[derive(Clone, Copy, Debug, PartialEq, Eq)]
pub enum Name {
    /// With its column.
    Missing,
    UpperCase,
    BlankAhead,
    BlankBehind,
    Shorter,
    Longer,
    DoubledQuote,
    HighBit,
    Empty,
    /// The name of another needed column.
    Other,
}

/// A number that is none in its range.
#[derive(Clone, Copy, Debug, PartialEq, Eq)]
pub enum Number {
    Past,
    TenTimes,
    Wraps32,
    Wraps64,
    Empty,
    QuotedEmpty,
    Plus,
    Minus,
    BlankAhead,
    BlankBehind,
    Letter,
    Point,
    Hexadecimal,
    ByteZero,
    HighBit,
    DoubledQuote,
    LineEndInQuotes,
    CommaInQuotes,
    CarriageReturns,
}

/// Fields and lines that are too many or too few.
#[derive(Clone, Copy, Debug, PartialEq, Eq)]
pub enum Row {
    FieldCut,
    FieldAdded,
    EmptyFieldAdded,
    /// A line without a byte.
    EmptyLine,
    /// Two rows in one line.
    Joined,
    /// A CR alone at a row's end.
    CrForLineEnd,
}

/// Anywhere in the text, to any effect.
#[derive(Clone, Copy, Debug, PartialEq, Eq)]
pub enum Place {
    ByteChanged,
    BitFlipped,
    ByteCut,
    ByteDoubled,
    BytesSwapped,
    Cut,
    Added(&'static [u8]),
    Replaced(&'static [u8]),
    HeaderCut,
    HeaderJoined,
    Twice,
}

#[derive(Clone, Copy, Debug, PartialEq, Eq)]
pub enum Damage {
    Name(Name),
    /// A needed name on another column too.
    NameTwice,
    InHeader(Quote),
    InRow(Quote),
    /// Of the grower, the weight or the yield.
    Number(Number, usize),
    Row(Row),
    NoText,
    Place(Place),
}

const QUOTES: [Quote; 9] = [
    Quote::Inside,
    Quote::AtTheEnd,
    Quote::Behind(b" "),
    Quote::Behind(b"x"),
    Quote::Behind(b"\0"),
    Quote::Behind(b"\xff"),
    Quote::Behind(b"\r\r"),
    Quote::NeverClosed,
    Quote::Cut,
];

const NAME_DAMAGES: [Name; 10] = [
    Name::Missing,
    Name::UpperCase,
    Name::BlankAhead,
    Name::BlankBehind,
    Name::Shorter,
    Name::Longer,
    Name::DoubledQuote,
    Name::HighBit,
    Name::Empty,
    Name::Other,
];

const NUMBERS: [Number; 19] = [
    Number::Past,
    Number::TenTimes,
    Number::Wraps32,
    Number::Wraps64,
    Number::Empty,
    Number::QuotedEmpty,
    Number::Plus,
    Number::Minus,
    Number::BlankAhead,
    Number::BlankBehind,
    Number::Letter,
    Number::Point,
    Number::Hexadecimal,
    Number::ByteZero,
    Number::HighBit,
    Number::DoubledQuote,
    Number::LineEndInQuotes,
    Number::CommaInQuotes,
    Number::CarriageReturns,
];

const ROWS: [Row; 6] = [
    Row::FieldCut,
    Row::FieldAdded,
    Row::EmptyFieldAdded,
    Row::EmptyLine,
    Row::Joined,
    Row::CrForLineEnd,
];

const PLACES: [Place; 18] = [
    Place::ByteChanged,
    Place::BitFlipped,
    Place::ByteCut,
    Place::ByteDoubled,
    Place::BytesSwapped,
    Place::Added(b"\""),
    Place::Added(b"\"\""),
    Place::Added(b","),
    Place::Added(b"\n"),
    Place::Added(b"\r"),
    Place::Added(b"\r\n"),
    Place::Replaced(b"\""),
    Place::Replaced(b"\n"),
    Place::Replaced(b"\r"),
    Place::HeaderCut,
    Place::HeaderJoined,
    Place::Twice,
    Place::Cut,
];

/// Every damage; later ones can be put after earlier ones.
pub fn damages() -> Vec<Damage> {
    let mut all: Vec<Damage> = ROWS.map(Damage::Row).to_vec();
    for column in 0..3 {
        all.extend(NUMBERS.map(|number| Damage::Number(number, column)));
    }
    all.extend(NAME_DAMAGES.map(Damage::Name));
    all.push(Damage::NameTwice);
    all.extend(QUOTES.map(Damage::InRow));
    all.extend(QUOTES.map(Damage::InHeader));
    all.extend(PLACES.map(Damage::Place));
    all.push(Damage::NoText);
    all
}

impl Damage {
    /// The refusal of a file with this damage alone; none if it may be any.
    pub fn refusal(self) -> Option<u32> {
        match self {
            Damage::Name(_) | Damage::InHeader(_) | Damage::NoText => Some(16),
            Damage::NameTwice => Some(17),
            Damage::InRow(_) | Damage::Number(..) | Damage::Row(_) => Some(18),
            Damage::Place(_) => None,
        }
    }

    /// The refusal of a file with both: that of the header goes ahead of that
    /// of a row. Two of one kind may undo each other.
    pub fn refusal_with(self, other: Damage) -> Option<u32> {
        let (first, second) = (self.refusal()?, other.refusal()?);
        ((first == 18) != (second == 18)).then_some(first.min(second))
    }
}

fn some_of(r: &mut Random, range: Range<usize>) -> Option<usize> {
    (!range.is_empty()).then(|| range.start + r.below(range.len()))
}

impl File {
    /// Puts the damage; none if it cannot be put here.
    pub fn put(&mut self, r: &mut Random, damage: Damage) -> Option<()> {
        match damage {
            Damage::Name(name) => self.put_name(r, name),
            Damage::NameTwice => self.put_name_twice(r),
            Damage::InHeader(quote) => self.put_quote(r, quote, 0),
            Damage::InRow(quote) => {
                let row = some_of(r, 1..self.records.len())?;
                self.put_quote(r, quote, row)
            }
            Damage::Number(number, column) => self.put_number(r, number, column),
            Damage::Row(row) => self.put_row(r, row),
            Damage::NoText => self.cut_at(0),
            Damage::Place(place) => self.put_place(r, place),
        }
    }

    fn put_name(&mut self, r: &mut Random, damage: Name) -> Option<()> {
        let needed = r.below(3);
        let column = self.columns[needed];
        if damage == Name::Missing {
            for record in &mut self.records {
                (column < record.fields.len()).then(|| record.fields.remove(column))?;
            }
            return Some(());
        }
        let field = self.records.first_mut()?.fields.get_mut(column)?;
        let mut name = NAMES[needed].to_vec();
        let at = r.below(name.len());
        match damage {
            Name::UpperCase => name[at].make_ascii_uppercase(),
            Name::BlankAhead => name.insert(0, b' '),
            Name::BlankBehind => name.push(b' '),
            Name::Shorter => name.truncate(at),
            Name::Longer => name.push(r.pick(b"s\0r")),
            Name::DoubledQuote => name.insert(at, b'"'),
            Name::HighBit => name[at] |= 0x80,
            Name::Empty => name.clear(),
            Name::Other | Name::Missing => name = NAMES[(needed + r.within(1, 2)) % 3].to_vec(),
        }
        *field = match damage == Name::DoubledQuote || r.one_in(2) {
            true => quoted(&name),
            false => name,
        };
        Some(())
    }

    fn put_name_twice(&mut self, r: &mut Random) -> Option<()> {
        let name = r.pick(&NAMES);
        let fields = self.records.iter().map(|record| record.fields.len());
        let at = r.below(fields.min()? + 1);
        match r.one_in(2) {
            true => self.add_column(at, &quoted(name), b"1"),
            false => self.add_column(at, name, b"1"),
        }
        Some(())
    }

    fn put_quote(&mut self, r: &mut Random, quote: Quote, row: usize) -> Option<()> {
        let record = self.records.get_mut(row)?;
        let at = some_of(r, 0..record.fields.len())?;
        let field = &mut record.fields[at];
        let place = some_of(r, 1..field.len());
        match quote {
            Quote::Inside if !is_quoted(field) => field.insert(place?, b'"'),
            Quote::AtTheEnd if !is_quoted(field) && !field.is_empty() => field.push(b'"'),
            Quote::Behind(bytes) if is_quoted(field) => field.extend(bytes),
            Quote::NeverClosed if !is_quoted(field) => {
                let same = self.records[row].fields[at..].iter();
                let later = self.records[row + 1..].iter().flat_map(|r| &r.fields);
                if same.chain(later).any(|field| field.contains(&b'"')) {
                    return None;
                }
                self.records[row].fields[at].insert(0, b'"');
            }
            Quote::Cut if is_quoted(field) => {
                let mut before = self.records[..row].to_vec();
                let mut fields = self.records[row].fields[..at].to_vec();
                fields.push(b"\"".to_vec());
                before.push(Record { fields, end: b"" });
                let whole = self.bytes();
                self.records = before;
                self.cut = whole[self.bytes().len()..].to_vec();
            }
            _ => return None,
        }
        Some(())
    }

    fn put_number(&mut self, r: &mut Random, damage: Number, needed: usize) -> Option<()> {
        let row = some_of(r, 1..self.records.len())?;
        let field = self.records[row].fields.get_mut(self.columns[needed])?;
        let limit = u128::from(LIMITS[needed]);
        let number = r.edge(0, limit as usize) as u128;
        let mut text = number_text(number, r.pick(&[0, 0, 1, 30]));
        let past = |value: u128, zeros: usize| number_text(value, zeros);
        let zeros = r.pick(&[0, 0, 1, 30]);
        match damage {
            Number::Past => text = past(limit + 1, zeros),
            Number::TenTimes => text = past(10 * (limit + number), zeros),
            Number::Wraps32 => text = past(number + (1 << 32), zeros),
            Number::Wraps64 => text = past(number + (1 << 64), zeros),
            Number::Empty | Number::QuotedEmpty => text.clear(),
            Number::Plus => text.insert(0, b'+'),
            Number::Minus => text.insert(0, b'-'),
            Number::BlankAhead => text.insert(0, b' '),
            Number::BlankBehind => text.push(b' '),
            Number::Letter => text.push(r.pick(b"/:aO")),
            Number::Point => text.extend(b".0"),
            Number::Hexadecimal => text.splice(0..0, *b"0x").for_each(drop),
            Number::ByteZero => text.push(0),
            Number::HighBit => text.push(b'0' | 0x80),
            Number::DoubledQuote => text.push(b'"'),
            Number::LineEndInQuotes => text.extend(r.pick(&[LF, CRLF])),
            Number::CommaInQuotes => text.push(b','),
            Number::CarriageReturns => text.extend(b"\r\r"),
        }
        let needs_quotes = matches!(
            damage,
            Number::QuotedEmpty
                | Number::DoubledQuote
                | Number::LineEndInQuotes
                | Number::CommaInQuotes
        );
        *field = match needs_quotes || damage != Number::Empty && r.one_in(3) {
            true => quoted(&text),
            false => text,
        };
        Some(())
    }

    fn put_row(&mut self, r: &mut Random, damage: Row) -> Option<()> {
        let count = self.records.len();
        if damage == Row::EmptyLine {
            let at = 1 + r.below(count);
            let before = &mut self.records.get_mut(at - 1)?.end;
            if before.is_empty() {
                *before = CRLF;
            }
            let end = r.pick(&[LF, CRLF]);
            let fields = vec![Vec::new()];
            self.records.insert(at, Record { fields, end });
            return Some(());
        }
        let last = match damage {
            Row::Joined | Row::CrForLineEnd => count.saturating_sub(1),
            _ => count,
        };
        let row = some_of(r, 1..last)?;
        let record = &mut self.records[row];
        let at = some_of(r, 0..record.fields.len())?;
        match damage {
            Row::FieldCut => drop(record.fields.remove(at)),
            Row::FieldAdded => record.fields.insert(at, b"7".to_vec()),
            Row::EmptyFieldAdded => record.fields.push(Vec::new()),
            Row::CrForLineEnd => record.end = b"\r",
            Row::Joined | Row::EmptyLine => record.end = b"",
        }
        Some(())
    }

    /// The text becomes one piece: only its bytes can be damaged after that.
    fn set_text(&mut self, text: Vec<u8>) {
        self.records = vec![Record {
            fields: vec![text],
            end: b"",
        }];
    }

    fn cut_at(&mut self, count: usize) -> Option<()> {
        let mut text = self.bytes();
        self.cut = text.split_off(count);
        self.set_text(text);
        Some(())
    }

    fn put_place(&mut self, r: &mut Random, place: Place) -> Option<()> {
        let mut text = self.bytes();
        let at = some_of(r, 0..text.len())?;
        match place {
            Place::Cut => return self.cut_at(at),
            Place::HeaderCut => drop(self.records.remove(0)),
            Place::HeaderJoined => self.records.first_mut()?.end = b"",
            Place::Twice => self.records.extend_from_within(..),
            Place::ByteChanged => text[at] ^= r.within(1, 255) as u8,
            Place::BitFlipped => text[at] ^= 1 << r.below(8),
            Place::ByteCut => drop(text.remove(at)),
            Place::ByteDoubled => text.insert(at, text[at]),
            Place::BytesSwapped => {
                let other = some_of(r, at + 1..text.len().min(at + 3))?;
                text.swap(at, other);
            }
            Place::Added(bytes) => text.splice(at..at, bytes.iter().copied()).for_each(drop),
            Place::Replaced(bytes) => text[at] = bytes[0],
        }
        if !matches!(place, Place::HeaderCut | Place::HeaderJoined | Place::Twice) {
            self.set_text(text);
        }
        Some(())
    }
}
