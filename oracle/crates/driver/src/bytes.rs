//! edits of a block's bytes: faults, and changes that leave it sound. `question::sound` says which.
use crate::codec::*;
use oracle::gen::Rng;
use oracle::{HANDLES, LIST, OBJECTS, RECORDS, THREADS};

type Edit = fn(&mut [u8], &mut Rng);

pub const EDITS: [(&str, Edit); 10] = [
    ("bits", bits),
    ("field's bit", field_bit),
    ("field's number", field_number),
    ("field of another row", field_of_another),
    ("rows changed over", rows_over),
    ("row cleared", row_cleared),
    ("record's next", record_next),
    ("free slot's next", free_next),
    ("records renumbered", records_renumbered),
    ("spare byte", spare_byte),
];

/// a table of the block: where it starts, rows, bytes a row, bytes of a row that have a field.
struct Table { at: usize, rows: usize, row: usize, used: usize }
const TABLES: [Table; 6] = [
    Table { at: 0, rows: 1, row: 128, used: 52 },
    Table { at: THREADS_AT, rows: THREADS, row: THREAD, used: THREAD_SPARE },
    Table { at: SLOTS_AT, rows: OBJECTS, row: SLOT, used: SLOT },
    Table { at: HANDLES_AT, rows: HANDLES, row: ENTRY, used: ENTRY },
    Table { at: RECORDS_AT, rows: RECORDS, row: RECORD, used: RECORD },
    Table { at: KEPT_AT, rows: THREADS, row: 4, used: 4 },
];

/// a table, and a row of it, mostly one that is not all zero.
fn row(b: &[u8], r: &mut Rng) -> (&'static Table, usize) {
    const ALL: &[Table] = &TABLES;
    let t = &ALL[r.below(ALL.len() as u64) as usize];
    let mut at = t.at;
    for _ in 0..8 {
        at = t.at + t.row * r.below(t.rows as u64) as usize;
        if b[at..at + t.used].iter().any(|x| *x != 0) { break; }
    }
    (t, at)
}
fn field(b: &[u8], r: &mut Rng) -> usize { let (t, at) = row(b, r); at + 4 * r.below(t.used as u64 / 4) as usize }

fn bits(b: &mut [u8], r: &mut Rng) { for _ in 0..1 + r.below(3) { b[r.below(BLOCK as u64) as usize] ^= 1 << r.below(8); } }
fn field_bit(b: &mut [u8], r: &mut Rng) {
    let (at, most) = (field(b, r), r.pick(&[3, 32]));
    let word = get32(b, at) ^ 1 << r.below(most);
    put32(b, at, word);
}
fn field_number(b: &mut [u8], r: &mut Rng) {
    let at = field(b, r);
    // small ones up to a count of one place more than a list has
    let word = match r.below(4) { 0 => r.below(LIST as u64 + 2) as u32, 1 => r.below(130) as u32, 2 => get32(b, at).wrapping_add(r.pick(&[1, u32::MAX])), _ => r.next() as u32 };
    put32(b, at, word);
}
fn field_of_another(b: &mut [u8], r: &mut Rng) {
    let (t, at) = row(b, r);
    let (other, k) = (t.at + t.row * r.below(t.rows as u64) as usize, 4 * r.below(t.used as u64 / 4) as usize);
    let word = get32(b, other + k);
    put32(b, at + k, word);
}
fn rows_over(b: &mut [u8], r: &mut Rng) {
    let (t, at) = row(b, r);
    let other = t.at + t.row * r.below(t.rows as u64) as usize;
    for i in 0..t.row { b.swap(at + i, other + i); }
}
fn row_cleared(b: &mut [u8], r: &mut Rng) { let (t, at) = row(b, r); b[at..at + t.row].fill(0); }
fn record_next(b: &mut [u8], r: &mut Rng) {
    let at = |r: &mut Rng| RECORDS_AT + RECORD * r.below(RECORDS as u64) as usize + 8;
    let (x, y) = (at(r), at(r));
    let (a, c) = (get32(b, x), get32(b, y));
    match r.below(3) { 0 => put32(b, x, r.below(66) as u32), 1 => put32(b, x, c), _ => { put32(b, x, c); put32(b, y, a) } }
}
fn free_next(b: &mut [u8], r: &mut Rng) {
    let dead: Vec<usize> = (0..OBJECTS).map(|o| SLOTS_AT + SLOT * o).filter(|at| get32(b, *at) == 0).collect();
    if dead.is_empty() { return; }
    let (x, y) = (r.pick(&dead) + 12, r.pick(&dead) + 12);
    let (a, c) = (get32(b, x), get32(b, y));
    match r.below(3) { 0 => put32(b, x, r.below(130) as u32), 1 => put32(b, x, c), _ => { put32(b, x, c); put32(b, y, a) } }
}
/// two record numbers changed over everywhere: the same lists of records, another block.
fn records_renumbered(b: &mut [u8], r: &mut Rng) {
    let (x, y) = (1 + r.below(RECORDS as u64) as u32, 1 + r.below(RECORDS as u64) as u32);
    if x == y { return; }
    for i in 0..RECORD { b.swap(RECORDS_AT + RECORD * (x as usize - 1) + i, RECORDS_AT + RECORD * (y as usize - 1) + i); }
    let firsts = (0..OBJECTS).map(|o| SLOTS_AT + SLOT * o).filter(|at| get32(b, *at) == 6).map(|at| at + 12);
    let places: Vec<usize> = firsts.chain((0..RECORDS).map(|i| RECORDS_AT + RECORD * i + 8)).chain([36]).collect();
    for at in places {
        let n = get32(b, at);
        put32(b, at, if n == x { y } else if n == y { x } else { n });
    }
}
fn spare_byte(b: &mut [u8], r: &mut Rng) {
    let mut below = |n: usize| r.below(n as u64) as usize;
    let at = match below(3) {
        0 => 52 + below(76),
        1 => THREADS_AT + THREAD * below(THREADS) + THREAD_SPARE + below(THREAD - THREAD_SPARE),
        _ => 13_312 + below(3_072),
    };
    b[at] = 1 << below(8);
}
