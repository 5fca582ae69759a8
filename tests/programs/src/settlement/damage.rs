//! What a disk or a hand leaves of a book.

use crate::book::{self, Book, PARTITIONS, SLOTS};
use programs::damage::Make::{Numbers, Whole};
use programs::damage::{
    common, fatal, lengthened, open, refused, Damage, Damages, Input as _, MEGABYTE,
};
use programs::run::Run;
use second::random::Random;

/// Each kind of damage, with what only books have.
pub fn run(run: &mut Run) {
    let mut list = common();
    list.extend(own());
    Damages {
        base: book::any,
        list,
    }
    .run(run);
}

fn own() -> Vec<Damage<Book>> {
    vec![
        // Line 1.
        fatal("B 0", Numbers(|_, book| head(book, 0, 0))),
        fatal("B 4,097", Numbers(|_, book| head(book, 0, 4_097))),
        open(
            "another B",
            Numbers(|r, book| head(book, 0, r.edge(1, 4_096) as u32)),
        ),
        fatal("M says one more", Numbers(|_, book| counted(book, 1, 1))),
        fatal("M says one less", Numbers(|_, book| counted(book, 1, -1))),
        refused("M 513", 12, Numbers(|_, book| head(book, 1, 513))),
        refused("M 262,144", 12, Numbers(|_, book| head(book, 1, 262_144))),
        fatal("M 262,145", Numbers(|_, book| head(book, 1, 262_145))),
        fatal("K says one more", Numbers(|_, book| counted(book, 2, 1))),
        fatal("K says one less", Numbers(|_, book| counted(book, 2, -1))),
        fatal("K 0", Numbers(|_, book| head(book, 2, 0))),
        fatal("K 65, with 65 partitions", Numbers(partition_too_many)),
        // Partitions.
        fatal("a length one more", Numbers(|r, book| length(r, book, 1))),
        fatal("a length one less", Numbers(|r, book| length(r, book, -1))),
        fatal("a length that wraps 32 bits", Numbers(lengths_wrap)),
        open("a delivery to the partition after", Numbers(length_shifted)),
        fatal("equal fences", Numbers(|r, book| fence(r, book, 0))),
        fatal("falling fences", Numbers(|r, book| fence(r, book, 1))),
        open("another fence", Numbers(other_fence)),
        // Deliveries.
        fatal("a grower just above his partition", Numbers(grower_above)),
        fatal("a grower just below his partition", Numbers(grower_below)),
        fatal(
            "a weight out of range",
            Numbers(|r, book| value(r, book, 1, 100_000)),
        ),
        fatal(
            "a yield out of range",
            Numbers(|r, book| value(r, book, 2, 10_000)),
        ),
        fatal("a delivery too many", Numbers(delivery_too_many)),
        fatal("a delivery too few", Numbers(delivery_too_few)),
        open("two deliveries exchanged", Numbers(exchanged)),
        // Lengths.
        fatal("1 byte longer than the longest", Whole(|r| too_long(r, 1))),
        fatal(
            "1 MB longer than the longest",
            Whole(|r| too_long(r, MEGABYTE)),
        ),
    ]
}

/// Sets a number of line 1. False if it is that already.
fn head(book: &mut Book, place: usize, number: u32) -> bool {
    let old = std::mem::replace(&mut book.head[place], number);
    old != number
}

fn counted(book: &mut Book, place: usize, by: i32) -> bool {
    let Some(number) = book.head[place].checked_add_signed(by) else {
        return false;
    };
    // More than 512 deliveries are refused by 12.
    let is_many = place == 1 && number as usize > SLOTS;
    !is_many && head(book, place, number)
}

fn partition_too_many(r: &mut Random, book: &mut Book) -> bool {
    *book = book::of(r, book.deliveries.len(), PARTITIONS + 1);
    true
}

fn length(r: &mut Random, book: &mut Book, by: i32) -> bool {
    let at = r.below(book.parts.len());
    match book.parts[at][0].checked_add_signed(by) {
        Some(number) => book.parts[at][0] = number,
        None => return false,
    }
    true
}

/// The lengths total M if added up in 32 bits.
fn lengths_wrap(r: &mut Random, book: &mut Book) -> bool {
    if book.parts.len() < 2 {
        return false;
    }
    let at = r.below(book.parts.len() - 1);
    for part in &mut book.parts[at..at + 2] {
        part[0] = part[0].wrapping_add(1 << 31);
    }
    true
}

fn length_shifted(r: &mut Random, book: &mut Book) -> bool {
    if book.parts.len() < 2 {
        return false;
    }
    let at = r.below(book.parts.len() - 1);
    if book.parts[at][0] == 0 {
        return false;
    }
    book.parts[at][0] -= 1;
    book.parts[at + 1][0] += 1;
    true
}

/// A fence so far below the one before it.
fn fence(r: &mut Random, book: &mut Book, below: u32) -> bool {
    if book.parts.len() < 2 {
        return false;
    }
    let at = r.within(1, book.parts.len() - 1);
    match book.parts[at - 1][1].checked_sub(below) {
        Some(fence) => book.parts[at][1] = fence,
        None => return false,
    }
    true
}

fn other_fence(r: &mut Random, book: &mut Book) -> bool {
    let at = r.below(book.parts.len());
    let near = book.parts[at][1].wrapping_add(r.pick(&[1, 2, u32::MAX]));
    book.parts[at][1] = r.pick(&[near, near, 0, u32::MAX]);
    true
}

/// A delivery gets another grower, made of its partition and the book.
fn regrown(r: &mut Random, book: &mut Book, grower: fn(&Book, usize) -> Option<u32>) -> bool {
    let p = r.below(book.parts.len());
    let slots = book.slots(p);
    match grower(book, p) {
        Some(grower) if !slots.is_empty() => {
            let at = r.edge(slots.start, slots.end - 1);
            book.deliveries[at][0] = grower;
            true
        }
        _ => false,
    }
}

fn grower_above(r: &mut Random, book: &mut Book) -> bool {
    regrown(r, book, |book, p| {
        let is_last = p + 1 == book.parts.len();
        (!is_last).then(|| book.parts[p][1] + 1)
    })
}

fn grower_below(r: &mut Random, book: &mut Book) -> bool {
    regrown(r, book, |book, p| Some(book.parts[p.checked_sub(1)?][1]))
}

fn value(r: &mut Random, book: &mut Book, place: usize, limit: u32) -> bool {
    if book.deliveries.is_empty() {
        return false;
    }
    let at = r.edge(0, book.deliveries.len() - 1);
    book.deliveries[at][place] = r.pick(&[limit + 1, limit + 1, 1 << 31, u32::MAX]);
    true
}

fn delivery_too_many(_: &mut Random, book: &mut Book) -> bool {
    let last = book.deliveries.last().copied();
    book.deliveries.extend(last);
    last.is_some()
}

fn delivery_too_few(r: &mut Random, book: &mut Book) -> bool {
    if book.deliveries.is_empty() {
        return false;
    }
    book.deliveries.remove(r.below(book.deliveries.len()));
    true
}

fn exchanged(r: &mut Random, book: &mut Book) -> bool {
    let count = book.deliveries.len();
    if count < 2 {
        return false;
    }
    book.deliveries.swap(r.below(count), r.below(count));
    true
}

fn too_long(r: &mut Random, by: usize) -> Vec<u8> {
    let text = book::largest(r).text();
    lengthened(r, text, by)
}
