//! The lines that the program `replay` reads and writes (README.md has the format).

use crate::records::adler32;

/// What a call is given or lent.
#[derive(Clone, Copy)]
pub enum Argument<'a> {
    Number(i64),
    Numbers(&'a [i32]),
    Bytes(&'a [u8]),
}

use Argument::{Bytes, Number, Numbers};

/// The longest line that is read, and how many numbers and bytes the lists of a line may have, in their order.
pub const LONGEST: usize = 8191;
const NUMBERS_ROOM: [usize; 3] = [2048, 2048, 128];
const BYTES_ROOM: [usize; 2] = [12288, 12352];
const ANSWERS_ROOM: usize = 128;

/// How many at the start of a list are equal.
fn equal<T: PartialEq>(list: &[T]) -> usize {
    list.iter().take_while(|v| **v == list[0]).count()
}

/// How many bytes at the start of a list go up by the same step, and that step.
fn rising(list: &[u8]) -> (usize, u8) {
    let step = list.get(1).map_or(0, |b| b.wrapping_sub(list[0]));
    let pairs = list.windows(2).take_while(|p| p[1].wrapping_sub(p[0]) == step).count();
    (1 + pairs, step)
}

/// The entries of a list, each as `entry` writes the start of what is left and how many it takes.
fn entries<T>(mut list: &[T], entry: impl Fn(&[T]) -> (usize, String)) -> String {
    let mut words = Vec::new();
    while !list.is_empty() {
        let (taken, word) = entry(list);
        words.push(word);
        list = &list[taken..];
    }
    words.join(" ")
}

fn repeated<T: PartialEq + ToString>(list: &[T]) -> (usize, String) {
    match equal(list) {
        1 => (1, list[0].to_string()),
        count => (count, format!("{}*{count}", list[0].to_string())),
    }
}

/// A list of numbers: `[1 0*8]`.
pub fn numbers(list: &[i32]) -> String {
    format!("[{}]", entries(list, repeated))
}

/// Bytes lent: `{9 101+37*16}`.
pub fn bytes(list: &[u8]) -> String {
    let entry = |list: &[u8]| match rising(list) {
        (count, step) if step > 0 && count >= 3 => (count, format!("{}+{step}*{count}", list[0])),
        _ => repeated(list),
    };
    format!("{{{}}}", entries(list, entry))
}

/// Bytes as they are answered: their sum.
fn sum(list: &[u8]) -> String {
    format!("#{}", adler32(list.iter().copied()))
}

/// A word, and then the arguments: numbers, lists of numbers, lists of bytes.
fn line(word: String, arguments: &[Argument], bytes: fn(&[u8]) -> String) -> String {
    let mut words: Vec<(usize, String)> = arguments.iter().map(|a| match a {
        Number(v) => (0, v.to_string()),
        Numbers(list) => (1, numbers(list)),
        Bytes(list) => (2, bytes(list)),
    }).collect();
    words.sort_by_key(|(place, _)| *place);
    words.iter().fold(word, |line, (_, word)| line + " " + word)
}

/// A call with its arguments.
pub fn query(call: &str, arguments: &[Argument]) -> String {
    line(call.to_string(), arguments, bytes)
}

/// A call's number and what its lists hold after it; nothing of those without entries.
pub fn answer(number: u32, after: &[Argument]) -> String {
    let held = |a: &&Argument| match a {
        Number(_) => false,
        Numbers(list) => !list.is_empty(),
        Bytes(list) => !list.is_empty(),
    };
    let held: Vec<Argument> = after.iter().filter(held).copied().collect();
    line(number.to_string(), &held, sum)
}

/// Whether `replay` has room for a call.
pub fn fits(call: &str, arguments: &[Argument]) -> bool {
    let (mut of_numbers, mut of_bytes) = (Vec::new(), Vec::new());
    for argument in arguments {
        match argument {
            Number(_) => {}
            Numbers(list) => of_numbers.push(list.len()),
            Bytes(list) => of_bytes.push(list.len()),
        }
    }
    let within = |lengths: &[usize], rooms: &[usize]| lengths.iter().zip(rooms).all(|(length, room)| length <= room);
    // the list for the answers of `run_calls` has less room than others
    (call != "run_calls" || of_numbers[1] <= ANSWERS_ROOM)
        && within(&of_numbers, &NUMBERS_ROOM)
        && within(&of_bytes, &BYTES_ROOM)
        && query(call, arguments).len() <= LONGEST
}
