//! Weighbridge files as mills may write them.

use crate::inputs;
use crate::text::Text;
use second::random::Random;
use second::Delivery;

pub const NAMES: [&[u8]; 3] = [b"grower", b"weight", b"yield"];
pub const LIMITS: [u64; 3] = [4_294_967_295, 100_000, 10_000];

pub const CRLF: &[u8] = b"\r\n";
pub const LF: &[u8] = b"\n";

/// Most leading zeros of a number.
pub const ZEROS: usize = 40;

/// Bytes of a long field.
pub const LONG: usize = 100_000;

/// Names of columns that are skipped.
const OTHERS: [&[u8]; 16] = [
    b"",
    b"mill",
    b"ticket no.",
    b"Grower",
    b"grower ",
    b"weigh",
    b"yields",
    b"\xef\xbb\xbfgrower",
    b"peso (\xc3\xb1)",
    b"weight\rx",
    b"\xff\0\x80",
    b"grower,weight",
    b"\"grower\"",
    b"say \"oil\"",
    b"in two\r\nlines",
    b"in two\nlines",
];

/// What a skipped field holds.
const REMARKS: [&[u8]; 14] = [
    b"",
    b"0",
    b"4294967296",
    b" ",
    b"-1",
    b"\rwet\r",
    b"\xc3\x81lvaro",
    b"\xff\0\x80\x0b",
    b",",
    b"Ruiz, Ana",
    b"\"",
    b"\"dry\" olives",
    b"wet\r\n\"sorted\",\r\nweighed twice\r\n",
    b"\n",
];

/// A line: its fields as they are written, and its end.
#[derive(Clone, Debug)]
pub struct Record {
    pub fields: Vec<Vec<u8>>,
    pub end: &'static [u8],
}

/// A weighbridge file.
#[derive(Clone, Debug)]
pub struct File {
    /// The header line is the first.
    pub records: Vec<Record>,
    /// Where grower, weight and yield stand.
    pub columns: [usize; 3],
    pub deliveries: Vec<Delivery>,
    /// What was cut off the end.
    pub cut: Vec<u8>,
}

/// A field in quotes.
pub fn quoted(field: &[u8]) -> Vec<u8> {
    let mut all = vec![b'"'];
    for &byte in field {
        all.push(byte);
        if byte == b'"' {
            all.push(byte);
        }
    }
    all.push(b'"');
    all
}

/// Whether a field can only be written in quotes.
fn needs_quotes(field: &[u8]) -> bool {
    field.iter().any(|b| b",\"\n".contains(b))
}

pub fn is_quoted(written: &[u8]) -> bool {
    written.starts_with(b"\"")
}

/// How a file is written.
#[derive(Clone, Copy)]
struct Style {
    /// Of so many fields one is quoted without need; 0 for no quote at all.
    quotes: usize,
    ends: &'static [&'static [u8]],
}

impl Style {
    fn draw(r: &mut Random) -> Style {
        Style {
            quotes: r.pick(&[0, 0, 1, 3]),
            ends: r.pick(&[&[CRLF][..], &[LF], &[CRLF, LF]]),
        }
    }

    fn write(self, r: &mut Random, field: &[u8]) -> Vec<u8> {
        match needs_quotes(field) || self.quotes > 0 && r.one_in(self.quotes) {
            true => quoted(field),
            false => field.to_vec(),
        }
    }

    /// One of these fields, which needs no quotes if there are none.
    fn pick(self, r: &mut Random, from: &[&[u8]]) -> Vec<u8> {
        loop {
            let field = r.pick(from);
            if self.quotes > 0 || !needs_quotes(field) {
                return self.write(r, field);
            }
        }
    }

    /// A number, in part with leading zeros.
    fn number(self, r: &mut Random, number: u32) -> Vec<u8> {
        let zeros = match r.one_in(3) {
            true => r.edge(1, ZEROS),
            false => 0,
        };
        self.write(r, &number_text(number.into(), zeros))
    }
}

pub fn number_text(number: u128, zeros: usize) -> Vec<u8> {
    format!("{}{number}", "0".repeat(zeros)).into_bytes()
}

pub fn delivery(r: &mut Random) -> Delivery {
    let grower = match r.below(4) {
        0 => r.pick(&[0, 1, u32::MAX - 1, u32::MAX]),
        1 => r.below(1_000) as u32,
        _ => r.next() as u32,
    };
    Delivery::new(grower, inputs::weight(r), inputs::oil_yield(r))
}

/// The three needed columns in any order, others anywhere between.
fn columns(r: &mut Random) -> Vec<Option<usize>> {
    let mut all = vec![Some(0), Some(1), Some(2)];
    for i in 0..2 {
        let j = r.within(i, 2);
        all.swap(i, j);
    }
    for _ in 0..r.pick(&[0, 0, 1, 2, 5]) {
        all.insert(r.below(all.len() + 1), None);
    }
    all
}

impl File {
    pub fn draw(r: &mut Random) -> File {
        let rows = match r.below(40) {
            0 => r.within(20, 200),
            1..=6 => 0,
            _ => r.within(1, 6),
        };
        let deliveries: Vec<Delivery> = (0..rows).map(|_| delivery(r)).collect();
        File::of(r, deliveries)
    }

    /// A file of these deliveries.
    pub fn of(r: &mut Random, deliveries: Vec<Delivery>) -> File {
        let style = Style::draw(r);
        let columns = columns(r);
        let mut records = Vec::with_capacity(1 + deliveries.len());
        for row in std::iter::once(None).chain(deliveries.iter().map(Some)) {
            let fields = columns.iter().map(|column| match (row, *column) {
                (None, Some(i)) => style.write(r, NAMES[i]),
                (None, None) => style.pick(r, &OTHERS),
                (Some(d), Some(i)) => style.number(r, [d.grower, d.weight, d.oil_yield][i]),
                (Some(_), None) => style.pick(r, &REMARKS),
            });
            let fields = fields.collect();
            let end = r.pick(style.ends);
            records.push(Record { fields, end });
        }
        let place = |i| columns.iter().position(|&c| c == Some(i)).unwrap_or(0);
        let mut file = File {
            columns: [0, 1, 2].map(place),
            records,
            deliveries,
            cut: Vec::new(),
        };
        if r.one_in(4) {
            file.cut_last_end();
        }
        file
    }

    fn cut_last_end(&mut self) {
        if let Some(last) = self.records.last_mut() {
            self.cut = std::mem::take(&mut last.end).to_vec();
        }
    }

    pub fn bytes(&self) -> Vec<u8> {
        let mut all = Vec::new();
        for record in &self.records {
            all.extend(record.fields.join(&b','));
            all.extend(record.end);
        }
        all
    }

    pub fn text(&self) -> Text {
        Text::new(self.bytes(), &self.cut)
    }

    /// Adds a column to every record.
    pub fn add_column(&mut self, at: usize, name: &[u8], value: &[u8]) {
        for (i, record) in self.records.iter_mut().enumerate() {
            let field = if i == 0 { name } else { value };
            record.fields.insert(at, field.to_vec());
        }
        for column in &mut self.columns {
            *column += usize::from(*column >= at);
        }
    }
}
