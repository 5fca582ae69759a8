//! Texts damaged as a disk or a hand damages them.

use crate::text::Text;
use second::random::Random;
use second::{BLOCK_LIMIT, SLOT_LIMIT, WEIGHT_LIMIT, YIELD_LIMIT};
use std::ops::Range;

/// Columns of a number.
const WIDTH: usize = 11;
/// Bytes of line 1 and of a delivery's line, with the LF.
pub const LINE_OF_THREE: usize = 3 * WIDTH + 1;

/// A line of numbers. Not the second implementation's: its lines are compared
/// with these.
pub fn line(numbers: &[u64]) -> Vec<u8> {
    let mut text: String = numbers.iter().map(|n| format!("{n:>WIDTH$}")).collect();
    text.push('\n');
    text.into_bytes()
}

/// The kinds of lines.
#[derive(Clone, Copy, Debug, PartialEq, Eq)]
pub enum Place {
    Line1,
    Partition,
    Delivery,
}

const PLACES: [Place; 3] = [Place::Line1, Place::Partition, Place::Delivery];

impl Place {
    fn fields(self) -> usize {
        match self {
            Place::Partition => 2,
            _ => 3,
        }
    }
}

/// Numbers that are no snapshot's, each written as it should be.
#[derive(Clone, Copy, Debug, PartialEq, Eq)]
pub enum Number {
    Block(u64),
    Used(u64),
    Count(u64),
    /// No partition, and no line of one.
    CountNone,
    /// 65 partitions with their lines, all else proper.
    CountPast,
    CountMore,
    CountFewer,
    UsedMore,
    UsedFewer,
    /// M one off the sum of the lengths, with as many lines as it says.
    UsedMoreWithLine,
    UsedFewerWithoutLine,
    LengthMore,
    LengthFewer,
    /// Lengths whose sum is M and 2^32.
    LengthsWrap,
    /// A slot of one partition counted to its neighbour.
    LengthShifted,
    GrowerAbove,
    GrowerBelow,
    FencesEqual,
    FencesFall,
    /// A fence below a grower of its partition.
    FenceLowered,
    /// A fence at a grower of the next partition.
    FenceRaised,
    Weight(u64),
    Yield(u64),
    LastWeight(u64),
    LastYield(u64),
}

/// One field written as no number is.
#[derive(Clone, Copy, Debug, PartialEq, Eq)]
pub enum Field {
    LeadingZero,
    Plus,
    Minus,
    /// The number and a multiple of 2^32, in 11 digits.
    ElevenDigits,
    /// 4,294,967,296
    PastLargest,
    /// The number and 2^32.
    Wraps,
    Tab,
    Empty,
    /// The last column blank.
    Left,
}

/// One line.
#[derive(Clone, Copy, Debug, PartialEq, Eq)]
pub enum Line {
    Cut,
    Doubled,
    CrLf,
    /// CR before the LF, and the line's first blank left out.
    CrLfSameLength,
    CrForLf,
    BlankForLf,
    LfCut,
    BlankLineAhead,
    /// Bytes 0 to the line's end.
    Zeroed,
    ByteCut,
    ByteDoubled,
}

/// Lines in the wrong order.
#[derive(Clone, Copy, Debug, PartialEq, Eq)]
pub enum Order {
    Line1AndPartition,
    Line1AndDelivery,
    Partitions,
    PartitionAndDelivery,
    /// Two deliveries of different partitions.
    Deliveries,
    /// Two deliveries of one partition: a snapshot again.
    DeliveriesWithin,
    DeliveryMoved,
}

#[derive(Clone, Copy, Debug, PartialEq, Eq)]
pub enum Whole {
    Empty,
    CutInLine1,
    CutLater,
    LinesCut,
    NoLastLf,
    Extra(u8),
    ExtraLine,
    Twice,
    EveryCrLf,
    ByteChanged,
    BitFlipped,
    BytesSwapped,
}

#[derive(Clone, Copy, Debug, PartialEq, Eq)]
pub enum Damage {
    Number(Number),
    Field(Field, Place),
    Line(Line, Place),
    Order(Order),
    Whole(Whole),
}

/// What a damage makes of a snapshot.
#[derive(Clone, Copy, Debug, PartialEq, Eq)]
pub enum Effect {
    /// No damage.
    None,
    /// Line 1 is not three numbers in range.
    Line1,
    /// Line 1 is, but the text is no snapshot.
    Rest,
    /// Another snapshot of the same M.
    Harmless,
    Any,
}

const NUMBERS: &[Number] = &[
    Number::Block(0),
    Number::Block(4_097),
    Number::Block(u32::MAX as u64),
    Number::Used(SLOT_LIMIT as u64 + 1),
    Number::Used(u32::MAX as u64),
    Number::Count(0),
    Number::Count(65),
    Number::Count(u32::MAX as u64),
    Number::CountNone,
    Number::CountPast,
    Number::CountMore,
    Number::CountFewer,
    Number::UsedMore,
    Number::UsedFewer,
    Number::UsedMoreWithLine,
    Number::UsedFewerWithoutLine,
    Number::LengthMore,
    Number::LengthFewer,
    Number::LengthsWrap,
    Number::LengthShifted,
    Number::GrowerAbove,
    Number::GrowerBelow,
    Number::FencesEqual,
    Number::FencesFall,
    Number::FenceLowered,
    Number::FenceRaised,
    Number::Weight(WEIGHT_LIMIT as u64 + 1),
    Number::Weight(u32::MAX as u64),
    Number::Yield(YIELD_LIMIT as u64 + 1),
    Number::Yield(u32::MAX as u64),
    Number::LastWeight(WEIGHT_LIMIT as u64 + 1),
    Number::LastYield(YIELD_LIMIT as u64 + 1),
];

const FIELDS: &[Field] = &[
    Field::LeadingZero,
    Field::Plus,
    Field::Minus,
    Field::ElevenDigits,
    Field::PastLargest,
    Field::Wraps,
    Field::Tab,
    Field::Empty,
    Field::Left,
];

const LINES: &[Line] = &[
    Line::Cut,
    Line::Doubled,
    Line::CrLf,
    Line::CrLfSameLength,
    Line::CrForLf,
    Line::BlankForLf,
    Line::LfCut,
    Line::BlankLineAhead,
    Line::Zeroed,
    Line::ByteCut,
    Line::ByteDoubled,
];

const ORDERS: &[Order] = &[
    Order::Line1AndPartition,
    Order::Line1AndDelivery,
    Order::Partitions,
    Order::PartitionAndDelivery,
    Order::Deliveries,
    Order::DeliveriesWithin,
    Order::DeliveryMoved,
];

const WHOLES: &[Whole] = &[
    Whole::ByteChanged,
    Whole::BitFlipped,
    Whole::BytesSwapped,
    Whole::Extra(b'\n'),
    Whole::Extra(b' '),
    Whole::Extra(b'0'),
    Whole::Extra(0),
    Whole::ExtraLine,
    Whole::Twice,
    Whole::EveryCrLf,
    Whole::NoLastLf,
    Whole::LinesCut,
    Whole::CutLater,
    Whole::CutInLine1,
    Whole::Empty,
];

/// Every damage; later ones can be put after earlier ones.
pub fn damages() -> Vec<Damage> {
    let mut all: Vec<Damage> = NUMBERS.iter().map(|&n| Damage::Number(n)).collect();
    for place in PLACES {
        all.extend(FIELDS.iter().map(|&f| Damage::Field(f, place)));
    }
    all.extend(ORDERS.iter().map(|&o| Damage::Order(o)));
    for place in PLACES {
        all.extend(LINES.iter().map(|&l| Damage::Line(l, place)));
    }
    all.extend(WHOLES.iter().map(|&w| Damage::Whole(w)));
    all
}

impl Damage {
    pub fn effect(self) -> Effect {
        let by_place = |place| match place {
            Place::Line1 => Effect::Line1,
            _ => Effect::Rest,
        };
        match self {
            Damage::Number(number) => match number {
                Number::Block(_)
                | Number::Used(_)
                | Number::Count(_)
                | Number::CountNone
                | Number::CountPast => Effect::Line1,
                _ => Effect::Rest,
            },
            Damage::Field(_, place) => by_place(place),
            Damage::Line(Line::Doubled, _) => Effect::Rest,
            Damage::Line(_, place) => by_place(place),
            Damage::Order(order) => match order {
                Order::Line1AndPartition => Effect::Line1,
                Order::Line1AndDelivery => Effect::Any,
                Order::DeliveriesWithin => Effect::Harmless,
                _ => Effect::Rest,
            },
            Damage::Whole(whole) => match whole {
                Whole::ByteChanged | Whole::BitFlipped | Whole::BytesSwapped => Effect::Any,
                Whole::EveryCrLf | Whole::CutInLine1 | Whole::Empty => Effect::Line1,
                _ => Effect::Rest,
            },
        }
    }
}

/// A text in lines, each with its LF.
#[derive(Clone, Debug)]
pub struct Draft {
    lines: Vec<Vec<u8>>,
    /// Lines of partitions.
    partitions: usize,
    /// What was cut off the end.
    cut: Vec<u8>,
}

fn span(field: usize) -> Range<usize> {
    WIDTH * field..WIDTH * (field + 1)
}

fn some_of(r: &mut Random, range: Range<usize>) -> Option<usize> {
    (!range.is_empty()).then(|| range.start + r.below(range.len()))
}

fn picked<T: Copy>(r: &mut Random, from: &[T]) -> Option<T> {
    some_of(r, 0..from.len()).map(|i| from[i])
}

impl Draft {
    /// The lines of a snapshot's text.
    pub fn new(text: &[u8], partitions: usize) -> Draft {
        let lines = text.split_inclusive(|&b| b == b'\n');
        Draft {
            lines: lines.map(|l| l.to_vec()).collect(),
            partitions,
            cut: Vec::new(),
        }
    }

    /// A delivery in each of so many partitions.
    fn of_partitions(count: u64) -> Draft {
        let mut lines = vec![line(&[1, count, count])];
        lines.extend((0..count).map(|p| line(&[1, p])));
        lines.extend((0..count).map(|p| line(&[p, 7, 7])));
        Draft {
            lines,
            partitions: count as usize,
            cut: Vec::new(),
        }
    }

    pub fn text(&self) -> Text {
        Text::new(self.lines.concat(), &self.cut)
    }

    /// M as line 1 says it.
    pub fn used(&self) -> Option<usize> {
        self.number(0, 1).map(|m| m as usize)
    }

    fn number(&self, line: usize, field: usize) -> Option<u64> {
        let text = self.lines.get(line)?.get(span(field))?;
        std::str::from_utf8(text).ok()?.trim_start().parse().ok()
    }

    fn set(&mut self, line: usize, field: usize, number: u64) -> Option<()> {
        let place = self.lines.get_mut(line)?.get_mut(span(field))?;
        place.copy_from_slice(format!("{number:>WIDTH$}").as_bytes());
        Some(())
    }

    /// The lines of a kind.
    fn lines_of(&self, place: Place) -> Range<usize> {
        let count = self.lines.len();
        let deliveries = (1 + self.partitions).min(count);
        match place {
            Place::Line1 => 0..count.min(1),
            Place::Partition => count.min(1)..deliveries,
            Place::Delivery => deliveries..count,
        }
    }

    fn line_of(&self, r: &mut Random, place: Place) -> Option<usize> {
        some_of(r, self.lines_of(place))
    }

    fn length(&self, p: usize) -> Option<u64> {
        self.number(1 + p, 0)
    }

    fn fence(&self, p: usize) -> Option<u64> {
        self.number(1 + p, 1)
    }

    /// The line and the partition of each delivery.
    fn owners(&self) -> Vec<(usize, usize)> {
        let partitions = 0..self.partitions;
        let owners = partitions.flat_map(|p| {
            let length = self.length(p).unwrap_or(0) as usize;
            std::iter::repeat_n(p, length.min(self.lines.len()))
        });
        self.lines_of(Place::Delivery).zip(owners).collect()
    }

    /// A delivery's line and partition, if its partition is one of these.
    fn delivery_in(&self, r: &mut Random, partitions: Range<usize>) -> Option<(usize, usize)> {
        let mut owners = self.owners();
        owners.retain(|(_, p)| partitions.contains(p));
        picked(r, &owners)
    }

    /// Two deliveries' lines, of one partition or not.
    fn two_deliveries(&self, r: &mut Random, within: bool) -> Option<(usize, usize)> {
        let owners = self.owners();
        let (line, owner) = picked(r, &owners)?;
        let others: Vec<usize> = owners
            .iter()
            .filter(|&&(l, p)| l != line && (p == owner) == within)
            .map(|&(l, _)| l)
            .collect();
        picked(r, &others).map(|other| (line, other))
    }

    /// Puts the damage; none if it cannot be put here.
    pub fn put(&mut self, r: &mut Random, damage: Damage) -> Option<()> {
        match damage {
            Damage::Number(number) => self.put_number(r, number),
            Damage::Field(field, place) => self.put_field(r, field, place),
            Damage::Line(line, place) => self.put_line(r, line, place),
            Damage::Order(order) => self.put_order(r, order),
            Damage::Whole(whole) => self.put_whole(r, whole),
        }
    }

    fn put_number(&mut self, r: &mut Random, number: Number) -> Option<()> {
        match number {
            Number::Block(n) => self.set(0, 0, n),
            Number::Used(n) => self.set(0, 1, n),
            Number::Count(n) => self.set(0, 2, n),
            Number::CountNone => {
                self.lines.drain(self.lines_of(Place::Partition));
                self.partitions = 0;
                self.set(0, 2, 0)
            }
            Number::CountPast => {
                *self = Draft::of_partitions(BLOCK_LIMIT as u64 + 1);
                Some(())
            }
            Number::CountMore => {
                let count = self.number(0, 2).filter(|&k| k < BLOCK_LIMIT as u64)?;
                self.set(0, 2, count + 1)
            }
            Number::CountFewer => {
                let count = self.number(0, 2).filter(|&k| k > 1)?;
                self.set(0, 2, count - 1)
            }
            Number::Weight(n) => self.set(self.line_of(r, Place::Delivery)?, 1, n),
            Number::Yield(n) => self.set(self.line_of(r, Place::Delivery)?, 2, n),
            Number::LastWeight(n) => self.set(self.lines_of(Place::Delivery).last()?, 1, n),
            Number::LastYield(n) => self.set(self.lines_of(Place::Delivery).last()?, 2, n),
            Number::GrowerAbove | Number::GrowerBelow => self.put_grower(r, number),
            Number::FencesEqual
            | Number::FencesFall
            | Number::FenceLowered
            | Number::FenceRaised => self.put_fence(r, number),
            _ => self.put_sum(r, number),
        }
    }

    /// M, the lengths and the number of lines, of which two agree at most.
    fn put_sum(&mut self, r: &mut Random, number: Number) -> Option<()> {
        let used = self.number(0, 1)?;
        match number {
            Number::UsedMore => self.set(0, 1, used + 1),
            Number::UsedFewer => self.set(0, 1, used.checked_sub(1)?),
            Number::UsedMoreWithLine => {
                let last = self.lines_of(Place::Delivery).last();
                let extra = last.map_or_else(|| line(&[0; 3]), |i| self.lines[i].clone());
                self.lines.push(extra);
                self.set(0, 1, used + 1)
            }
            Number::UsedFewerWithoutLine => {
                let last = self.lines_of(Place::Delivery).last()?;
                self.lines.remove(last);
                self.set(0, 1, used.checked_sub(1)?)
            }
            Number::LengthMore => self.add_length(self.line_of(r, Place::Partition)?, 1),
            Number::LengthFewer => {
                let (_, owner) = self.delivery_in(r, 0..self.partitions)?;
                self.add_length(1 + owner, -1)
            }
            Number::LengthsWrap => {
                let first = some_of(r, 1..self.partitions)?;
                let second = some_of(r, first + 1..self.partitions + 1)?;
                self.add_length(first, 1 << 31)?;
                self.add_length(second, 1 << 31)
            }
            Number::LengthShifted => {
                let (_, owner) = self.delivery_in(r, 0..self.partitions)?;
                let near = [owner.checked_sub(1), Some(owner + 1)];
                let near: Vec<usize> = near.into_iter().flatten().collect();
                let to = picked(r, &near).filter(|&p| p < self.partitions)?;
                self.add_length(1 + owner, -1)?;
                self.add_length(1 + to, 1)
            }
            _ => None,
        }
    }

    fn add_length(&mut self, line: usize, more: i64) -> Option<()> {
        let length = self.number(line, 0)?.checked_add_signed(more)?;
        self.set(line, 0, length)
    }

    /// A grower just past its partition's part of the growers.
    fn put_grower(&mut self, r: &mut Random, number: Number) -> Option<()> {
        if number == Number::GrowerAbove {
            let (line, owner) = self.delivery_in(r, 0..self.partitions.saturating_sub(1))?;
            self.set(line, 0, self.fence(owner)? + 1)
        } else {
            let (line, owner) = self.delivery_in(r, 1..self.partitions)?;
            self.set(line, 0, self.fence(owner - 1)?)
        }
    }

    fn put_fence(&mut self, r: &mut Random, number: Number) -> Option<()> {
        let last = self.partitions.checked_sub(1).filter(|&p| p > 0)?;
        let at = r.edge(1, last);
        match number {
            Number::FencesEqual => self.set(1 + at, 1, self.fence(at - 1)?),
            Number::FencesFall => {
                let before = self.fence(at - 1)?;
                self.set(1 + at, 1, before.checked_sub(1)?)
            }
            Number::FenceLowered => {
                let (line, owner) = self.delivery_in(r, 0..last)?;
                let grower = self.number(line, 0)?;
                let least = match owner {
                    0 => 0,
                    p => self.fence(p - 1)? + 1,
                };
                (grower > least).then(|| self.set(1 + owner, 1, grower - 1))?
            }
            _ => {
                let (line, owner) = self.delivery_in(r, 1..last + 1)?;
                self.set(owner, 1, self.number(line, 0)?)
            }
        }
    }

    fn put_field(&mut self, r: &mut Random, kind: Field, place: Place) -> Option<()> {
        let line = self.line_of(r, place)?;
        let at = r.below(place.fields());
        let number = self.number(line, at)?;
        let field = self.lines[line].get_mut(span(at))?;
        let blanks = field.iter().take_while(|&&b| b == b' ').count();
        let blank = some_of(r, 0..blanks)?;
        match kind {
            Field::LeadingZero => field[blanks - 1] = b'0',
            Field::Plus => field[blanks - 1] = b'+',
            Field::Minus => field[blanks - 1] = b'-',
            Field::Tab => field[blank] = b'\t',
            Field::Empty => field.fill(b' '),
            Field::Left => field.rotate_left(1),
            Field::PastLargest => return self.set(line, at, 1 << 32),
            Field::Wraps => return self.set(line, at, number + (1 << 32)),
            Field::ElevenDigits => {
                let times = r.within(3, 22) as u64;
                return self.set(line, at, number + (times << 32));
            }
        }
        Some(())
    }

    fn put_line(&mut self, r: &mut Random, kind: Line, place: Place) -> Option<()> {
        let i = self.line_of(r, place)?;
        let length = self.lines[i].len();
        let at = some_of(r, 0..length.saturating_sub(1))?;
        let line = &mut self.lines[i];
        match kind {
            Line::Cut => {
                self.lines.remove(i);
                self.partitions -= usize::from(place == Place::Partition);
            }
            Line::Doubled => {
                let copy = line.clone();
                self.lines.insert(i, copy);
            }
            Line::CrLf => line.insert(length - 1, b'\r'),
            Line::CrLfSameLength => {
                line.insert(length - 1, b'\r');
                line.remove(0);
            }
            Line::CrForLf => line[length - 1] = b'\r',
            Line::BlankForLf => line[length - 1] = b' ',
            Line::LfCut => line.truncate(length - 1),
            Line::BlankLineAhead => line.insert(0, b'\n'),
            Line::Zeroed => line[at..].fill(0),
            Line::ByteCut => {
                line.remove(at);
            }
            Line::ByteDoubled => line.insert(at, line[at]),
        }
        Some(())
    }

    fn put_order(&mut self, r: &mut Random, order: Order) -> Option<()> {
        let (i, j) = match order {
            Order::Line1AndPartition => (0, self.line_of(r, Place::Partition)?),
            Order::Line1AndDelivery => (0, self.line_of(r, Place::Delivery)?),
            Order::PartitionAndDelivery => (
                self.line_of(r, Place::Partition)?,
                self.line_of(r, Place::Delivery)?,
            ),
            Order::Partitions => {
                let lines = self.lines_of(Place::Partition);
                let first = self.line_of(r, Place::Partition)?;
                (first, some_of(r, first + 1..lines.end)?)
            }
            Order::DeliveriesWithin => self.two_deliveries(r, true)?,
            Order::Deliveries | Order::DeliveryMoved => self.two_deliveries(r, false)?,
        };
        if order == Order::DeliveryMoved {
            let moved = self.lines.remove(i);
            self.lines.insert(j, moved);
        } else {
            self.lines.swap(i, j);
        }
        Some(())
    }

    /// Cuts the text after so many bytes.
    fn cut_at(&mut self, count: usize) {
        let mut text = self.lines.concat();
        let cut = text.split_off(count);
        *self = Draft::new(&text, self.partitions);
        self.cut = cut;
    }

    /// A byte's line and its place there.
    fn byte(&self, r: &mut Random) -> Option<(usize, usize)> {
        let size = self.lines.concat().len();
        let mut at = some_of(r, 0..size)?;
        let mut line = 0;
        while at >= self.lines[line].len() {
            at -= self.lines[line].len();
            line += 1;
        }
        Some((line, at))
    }

    fn put_byte(&mut self, r: &mut Random, whole: Whole) -> Option<()> {
        let (i, at) = self.byte(r)?;
        let line = &mut self.lines[i];
        match whole {
            Whole::BitFlipped => line[at] ^= 1 << r.below(8),
            Whole::BytesSwapped if at + 1 < line.len() && line[at] != line[at + 1] => {
                line.swap(at, at + 1);
            }
            Whole::ByteChanged => line[at] ^= r.within(1, 255) as u8,
            _ => return None,
        }
        Some(())
    }

    fn put_whole(&mut self, r: &mut Random, whole: Whole) -> Option<()> {
        let size = self.lines.concat().len();
        match whole {
            Whole::Empty => self.cut_at(0),
            Whole::CutInLine1 => self.cut_at(some_of(r, 1..LINE_OF_THREE.min(size))?),
            Whole::CutLater => self.cut_at(some_of(r, LINE_OF_THREE..size)?),
            Whole::LinesCut => {
                let kept = some_of(r, 1..self.lines.len())?;
                self.cut_at(self.lines[..kept].concat().len());
            }
            Whole::NoLastLf => self.cut_at(size.checked_sub(1)?),
            Whole::Extra(byte) => self.lines.last_mut()?.push(byte),
            Whole::ExtraLine => self.lines.push(line(&[0; 3])),
            Whole::Twice => self.lines.extend_from_within(..),
            Whole::EveryCrLf => {
                for line in &mut self.lines {
                    line.pop()?;
                    line.extend_from_slice(b"\r\n");
                }
            }
            Whole::ByteChanged | Whole::BitFlipped | Whole::BytesSwapped => {
                return self.put_byte(r, whole);
            }
        }
        Some(())
    }
}
