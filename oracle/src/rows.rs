//! Rows of words, little-endian: what every part's rows share. Before a part's rows comes a head: the part's name, with
//! zeros up to eight bytes, and how many rows there are.

use std::collections::HashSet;
use std::io::{self, Read, Write};

use crate::chance::Chance;

/// A part's rows: their shape, and how they are made.
pub struct Part {
    pub name: &'static str,
    /// Bytes in a word (4 or 8), words in a row, which word says how many more there are, if any, and which is the
    /// answer (`says`), if any: the first word that is not given. Given words that have no room before the answer come
    /// after the row's first words. The first word is the op, unless there is only one.
    pub word: usize,
    pub words: usize,
    pub more_at: Option<usize>,
    pub answer_at: Option<usize>,
    pub ops: &'static [&'static str],
    /// The given words of every edge.
    pub edges: fn() -> Vec<Vec<u64>>,
    /// The given words of the random rows, one after the other.
    pub random: fn(Chance) -> Rows,
    /// What the original answers, or the refusal: the words after the given ones.
    pub answer: fn(&[u64]) -> Vec<u64>,
}

/// An answer in one word, as the library's header packs it.
pub fn says(number: u64, place: u64, count: u64) -> u64 {
    assert!(number < 1 << 8 && place < 1 << 24 && count < 1 << 32);
    number | place << 8 | count << 32
}

/// Given words of rows, one after the other.
pub type Rows = Box<dyn Iterator<Item = Vec<u64>>>;

/// Rows that have nothing to do with each other.
pub fn each(mut chance: Chance, row: impl Fn(&mut Chance) -> Vec<u64> + 'static) -> Rows {
    Box::new(std::iter::repeat_with(move || row(&mut chance)))
}

/// The last of every so many rows is one of these, the others are of those.
pub fn one_in(every: u64, mut these: Rows, mut those: Rows) -> Rows {
    Box::new((1..).map(move |i| if i % every == 0 { &mut these } else { &mut those }.next().unwrap()))
}

/// Bytes in a name, and in a head.
const NAME: usize = 8;
const HEAD: usize = 16;

/// A head, the edges, each once, then `count` random rows.
pub fn write(part: &Part, seed: u64, count: u64) {
    let mut out = io::BufWriter::new(io::stdout().lock());
    let (mut seen, mut edges) = (HashSet::new(), (part.edges)());
    edges.retain(|given| seen.insert(given.clone()));
    out.write_all(&head(part, edges.len() as u64 + count)).expect("standard output took not all");
    for given in edges {
        put(part, &given, &mut out);
    }
    for given in (part.random)(Chance::new(seed)).take(count as usize) {
        put(part, &given, &mut out);
    }
    out.flush().expect("standard output took not all");
}

fn put(part: &Part, given: &[u64], out: &mut impl Write) {
    let answer = (part.answer)(given);
    let more = part.more_at.map_or(0, |at| given[at] as usize);
    assert_eq!(given.len() + answer.len(), part.words + more);
    let (head, score) = given.split_at(part.answer_at.unwrap_or(given.len()));
    let (numbers, rest) = answer.split_at(part.words - head.len());
    for word in [head, numbers, score, rest].into_iter().flatten() {
        assert!(part.word == 8 || *word <= u32::MAX as u64);
        out.write_all(&word.to_le_bytes()[..part.word]).expect("standard output took not all");
    }
}

fn head(part: &Part, rows: u64) -> [u8; HEAD] {
    let mut head = [0; HEAD];
    head[..part.name.len()].copy_from_slice(part.name.as_bytes());
    head[NAME..].copy_from_slice(&rows.to_le_bytes());
    head
}

/// A line for each part of standard input with its rows, and one for each op: how many are done and refused.
pub fn tally(part_of: fn(&str) -> &'static Part) {
    let mut bytes = Vec::new();
    io::stdin().read_to_end(&mut bytes).expect("standard input gave not all");
    let mut rest = &bytes[..];
    while !rest.is_empty() {
        let (head, rows) = rest.split_at(HEAD);
        let name = String::from_utf8_lossy(&head[..NAME]);
        let count = u64::from_le_bytes(head[NAME..].try_into().unwrap());
        rest = tally_part(part_of(name.trim_end_matches('\0')), count, rows);
    }
}

/// What comes after the part's rows.
fn tally_part<'a>(part: &Part, count: u64, rows: &'a [u8]) -> &'a [u8] {
    let (mut counts, mut rest) = (vec![[0u64; 2]; part.ops.len()], rows);
    for _ in 0..count {
        let (row, after) = rest.split_at(size(part, rest));
        let refused = part.answer_at.is_some_and(|at| word(part, row, at) % 256 != 0);
        let op = if part.ops.len() == 1 { 0 } else { word(part, row, 0) };
        counts[op as usize][refused as usize] += 1;
        rest = after;
    }
    println!("{}: {count} rows, {} bytes", part.name, rows.len() - rest.len());
    for (op, [done, refused]) in part.ops.iter().zip(counts) {
        println!("  {op}: {done} done, {refused} refused");
    }
    rest
}

/// Bytes in the first row of some.
fn size(part: &Part, rows: &[u8]) -> usize {
    let fixed = part.word * part.words;
    let more = part.more_at.filter(|_| rows.len() >= fixed).map_or(0, |at| word(part, rows, at) as usize);
    let size = fixed + part.word * more;
    assert!(size <= rows.len(), "the last row is cut short");
    size
}

fn word(part: &Part, row: &[u8], at: usize) -> u64 {
    let mut bytes = [0; 8];
    bytes[..part.word].copy_from_slice(&row[at * part.word..(at + 1) * part.word]);
    u64::from_le_bytes(bytes)
}
