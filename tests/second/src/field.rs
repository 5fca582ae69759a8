//! Numbers in text: decimal, right-justified in fixed columns.

/// Columns of every number but the printed bill and those of a sheet.
pub const WIDTH: usize = 11;
/// Columns of the printed bill, and of every number of a sheet.
pub const WIDE: usize = 20;

/// Bytes of a line of `fields` numbers with its LF.
pub const fn line_size(fields: usize) -> usize {
    fields * WIDTH + 1
}

/// Bytes of a sheet's line of `fields` numbers with its LF.
pub const fn wide_line_size(fields: usize) -> usize {
    fields * WIDE + 1
}

/// Reads one number at `at`: spaces, then at least one digit, up to 11
/// columns in all, no leading zero but in `0` itself.
pub fn read_number(text: &[u8], at: usize) -> Option<u64> {
    let field = text.get(at..at.checked_add(WIDTH)?)?;
    let spaces = field.iter().take_while(|&&c| c == b' ').count();
    let digits = &field[spaces..];
    if digits.is_empty() || (digits[0] == b'0' && digits.len() > 1) {
        return None;
    }
    let mut value = 0u64;
    for &c in digits {
        if !c.is_ascii_digit() {
            return None;
        }
        value = value * 10 + u64::from(c - b'0');
    }
    Some(value)
}

/// Reads a line of `F` numbers and its LF; answers the numbers and the
/// position after the line.
pub fn read_line<const F: usize>(text: &[u8], at: usize) -> Option<([u64; F], usize)> {
    let mut numbers = [0; F];
    for (i, number) in numbers.iter_mut().enumerate() {
        *number = read_number(text, at + i * WIDTH)?;
    }
    let lf = at + F * WIDTH;
    if text.get(lf) == Some(&b'\n') {
        Some((numbers, lf + 1))
    } else {
        None
    }
}

/// Reads a line of `F` numbers that each fit 32 bits.
pub fn read_line_u32<const F: usize>(text: &[u8], at: usize) -> Option<([u32; F], usize)> {
    let (wide, next) = read_line::<F>(text, at)?;
    let mut numbers = [0; F];
    for (to, &from) in numbers.iter_mut().zip(&wide) {
        *to = u32::try_from(from).ok()?;
    }
    Some((numbers, next))
}

/// Writes the digits of `value` right-justified into the whole of `field`,
/// with a minus directly before the first digit if `negative`.
fn write_digits(field: &mut [u8], mut value: u64, negative: bool) {
    let mut at = field.len();
    loop {
        at -= 1;
        field[at] = b'0' + (value % 10) as u8;
        value /= 10;
        if value == 0 {
            break;
        }
    }
    if negative {
        at -= 1;
        field[at] = b'-';
    }
    field[..at].fill(b' ');
}

/// Writes one number in 11 columns at `at`; answers the position after it.
pub fn write_number(out: &mut [u8], at: usize, value: u32) -> usize {
    write_digits(&mut out[at..at + WIDTH], u64::from(value), false);
    at + WIDTH
}

/// Writes a bill in 20 columns at `at`; answers the position after it.
pub fn write_bill(out: &mut [u8], at: usize, bill: i64) -> usize {
    write_digits(&mut out[at..at + WIDE], bill.unsigned_abs(), bill < 0);
    at + WIDE
}

/// Writes a line of numbers and its LF; answers the position after it.
pub fn write_line(out: &mut [u8], mut at: usize, numbers: &[u32]) -> usize {
    for &n in numbers {
        at = write_number(out, at, n);
    }
    out[at] = b'\n';
    at + 1
}

/// Writes a sheet's line of numbers and its LF; answers the position after it.
pub fn write_wide_line(out: &mut [u8], mut at: usize, numbers: &[u64]) -> usize {
    for &n in numbers {
        write_digits(&mut out[at..at + WIDE], n, false);
        at += WIDE;
    }
    out[at] = b'\n';
    at + 1
}

/// What a program prints of a refused input: the number alone.
pub fn refusal_text(number: u32) -> Vec<u8> {
    let mut out = vec![0; line_size(1)];
    write_line(&mut out, 0, &[number]);
    out
}
