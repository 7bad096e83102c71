//! a sample of what the original answers, for the program crates/replay, which the gate runs.
//! A line of the record is a letter and words in hexadecimal:
//!
//!     # TEXT                         a comment
//!     r PROFILE SEED                 a sequence starts, with zeros in everything lent
//!     w BASE LENGTH                  the host lends another window, of zeros
//!     p AREA PLACE WORD              a word of block (0), bank (1), processor (2) or window (3) becomes this
//!     LETTER CODE HASH ARGUMENTS     an operation of the library, ticks as upper and lower half:
//!         f STATUS / t ENTRY STACK ARG PRIORITY PROCESSOR / e THREAD / s TICK / n / h ALL TICK COUNT HANDLES / q HANDLE TICK
//!         d NUMBER R0..R5 TICK / c
//!
//! CODE is the original's number, HASH is FNV-1a of the answer slice, block, bank, processor and window after the operation.
use crate::codec;
use crate::lent::{Lent, BANK, CONTEXT};
use crate::port::{Chosen, Operation, OPERATIONS};
use crate::state::{Object, State};
use oracle::gen::{Gen, PROFILES};
use oracle::{accepted, dedup, Judged, Op, Oracle, Out, CALLS, LIST, WAIT_AT_ONCE};
use std::collections::{BTreeMap, BTreeSet};
use std::fmt::Write;
use zakuro_core::kernel::object::KObject;
use zakuro_core::kernel::thread::ThreadStatus;

/// what the program fills answer slices with, to see that a refusal leaves them.
const UNTOUCHED: u8 = 0xA5;
const WINDOW: usize = 256;
/// the handles of a list that a line of the record has room for; a longer one only looks and is left out.
const LINE_HANDLES: usize = 9;

/// the operations of a sequence, the host's among them, before its profile counts as shown.
const ENOUGH: usize = 40;

/// what the sample shows of the original: a profile, an operation or a guest call and its number, more of what it gave, and
/// the same number in a profile.
#[derive(Clone, Copy, PartialEq, Eq, PartialOrd, Ord)]
enum Shown {
    Profile(usize),
    Code { name: &'static str, call: Option<u32>, code: u32 },
    Out { name: &'static str, what: &'static str },
    InProfile { profile: usize, name: &'static str, call: Option<u32>, code: u32 },
}

impl Shown {
    /// the last kind only fills the room that is left.
    fn weight(&self) -> f64 { if let Shown::InProfile { .. } = self { 1.0 } else { 1e6 } }
}

fn fnv(hash: u32, bytes: &[u8]) -> u32 { bytes.iter().fold(hash, |h, b| (h ^ *b as u32).wrapping_mul(16_777_619)) }

/// what the program lends at the start of a sequence.
fn zeros() -> Lent { Lent { block: vec![0; codec::BLOCK], bank: vec![0; BANK], processor: vec![0; CONTEXT], window: vec![], base: 0 } }

/// the program keeps every window in one array, with zeros after it.
fn hash(answer: &[u8], lent: &Lent) -> u32 {
    let mut window = lent.window.clone();
    window.resize(WINDOW, 0);
    [answer, &lent.block, &lent.bank, &lent.processor, &window].into_iter().fold(2_166_136_261, fnv)
}

/// the lines that turn one into the other.
fn changes(from: &Lent, to: &Lent) -> String {
    let mut text = String::new();
    let moved = to.base != from.base || to.window.len() != from.window.len();
    if moved { writeln!(text, "w {:x} {:x}", to.base, to.window.len()).unwrap(); }
    let window = if moved { vec![0; to.window.len()] } else { from.window.clone() };
    let areas = [(&from.block, &to.block), (&from.bank, &to.bank), (&from.processor, &to.processor), (&window, &to.window)];
    for (area, (from, to)) in areas.into_iter().enumerate() {
        for at in (0..to.len()).step_by(4).filter(|&at| from[at..at + 4] != to[at..at + 4]) {
            writeln!(text, "p {area:x} {at:x} {:x}", codec::get32(to, at)).unwrap();
        }
    }
    text
}

/// the oracle's state as a block whose record numbers, which the original does not have, are those of the library's block.
fn encode_as(o: &Oracle, library: &[u8]) -> Result<Vec<u8>, String> {
    let mut s = State::of(o)?;
    let theirs = codec::decode(library)?;
    let mut arbiters = Vec::new();
    let mut order = Vec::new();
    for (id, object) in o.sys.kernel.objects.iter() {
        if let KObject::AddressArbiter(a) = object {
            let records = dedup(&a.waiters);
            let first = match theirs.slots[id.0 as usize].object { Object::Arbiter { first } => first, _ => 0 };
            let chain = theirs.record_chain(first);
            if chain.len() != records.len() { return Err(format!("{} records of object {}", chain.len(), id.0 + 1)); }
            order.extend(chain);
            arbiters.push((id.0 + 1, records));
        }
    }
    order.extend(theirs.record_chain(theirs.first_free_record));
    if order.iter().copied().collect::<BTreeSet<u32>>().len() != s.records.len() { return Err("records".into()); }
    s.link_records(&arbiters, &order);
    Ok(codec::encode(&s))
}

fn words(list: &[u32]) -> String { list.iter().fold(String::new(), |mut s, w| { write!(s, " {w:x}").unwrap(); s }) }

/// the letter of an operation and its arguments.
fn line(op: &Op) -> (char, String) {
    let halves = |tick: &u64| [(tick >> 32) as u32, *tick as u32];
    match op {
        Op::Fresh { status } => ('f', words(&[*status])),
        Op::Create { entry, stack, arg, prio, proc } => ('t', words(&[*entry, *stack, *arg, *prio, *proc as u32])),
        Op::End { thread } => ('e', words(&[*thread])),
        Op::Pass { tick } => ('s', words(&halves(tick))),
        Op::NextEvent => ('n', String::new()),
        Op::Satisfied { handles, all, tick } => ('h', words(&[*all as u32]) + &words(&halves(tick)) + &words(&[handles.len() as u32]) + &words(handles)),
        Op::Quiet { handle, tick } => ('q', words(&[*handle]) + &words(&halves(tick))),
        Op::Call { num, regs, tick } => ('d', words(&[*num]) + &words(regs) + &words(&halves(tick))),
        Op::Collect => ('c', String::new()),
        _ => unreachable!("no operation of the library"),
    }
}

fn what(out: &Out) -> Option<&'static str> {
    Some(match out {
        Out::Switched(true) => "another thread runs",
        Out::Switched(false) => "no other thread runs",
        Out::Tick(Some(_)) => "a tick",
        Out::Tick(None) => "no tick",
        Out::Satisfied(Some(_)) => "satisfied",
        Out::Satisfied(None) => "not satisfied",
        Out::Quiet(Some((_, true))) => "frees the mutex",
        Out::Quiet(Some((_, false))) => "keeps the mutex",
        Out::Quiet(None) => "needs a pass",
        Out::Collected(Some((1, _)), _) => "signaled",
        Out::Collected(Some(_), _) => "timed out",
        Out::Collected(None, _) => "no result",
        _ => return None,
    })
}

/// lists of the lengths that are limits; `o` is the state after the operation.
fn limit(op: &Op, code: u32, o: &Oracle) -> Option<&'static str> {
    let waits = o.sys.kernel.current().is_some_and(|t| t.status == ThreadStatus::WaitSync);
    match op {
        Op::Call { num: 0x25, regs, .. } => match (regs[2] as usize, code) {
            (LIST, 0) => Some(if waits { "the longest list waits" } else { "the longest list at once" }),
            (n, 5) if n == LIST + 1 => Some("one handle too many"),
            _ => None,
        },
        Op::Satisfied { handles, .. } if handles.len() == WAIT_AT_ONCE => Some("eight handles"),
        Op::Satisfied { handles, .. } if handles.len() == WAIT_AT_ONCE + 1 => Some("nine handles"),
        _ => None,
    }
}

/// one operation: its lines, what it shows, and its number if it is one of the library's.
struct Entry { text: String, shows: Vec<Shown>, code: Option<u32> }

struct Sequence { profile: usize, seed: u64, entries: Vec<Entry> }

fn operation(x: &Operation, op: &Op, o: &mut Oracle, lent: &mut Lent) -> Result<Entry, String> {
    o.lend(op);
    lent.lend(op);
    let Judged { answer, after, odd } = o.judge(op);
    if let Some(odd) = odd { return Err(odd); }
    let mut library = lent.clone();
    let mut slice = vec![UNTOUCHED; x.answer_len];
    let code = (x.call)(op, &mut library, &mut slice);
    let refused = !accepted(answer.code);
    let expected = if refused { vec![UNTOUCHED; x.answer_len] } else { (x.answer)(&answer.out) };
    if let Some(sys) = after {
        *o = Oracle { sys, default_status: o.status_after(op), panics: vec![] };
        if x.starts_fresh { lent.bank.fill(0); }
        lent.follow(o)?;
        lent.block = encode_as(o, &library.block)?;
    }
    if (code, &slice, &library) != (answer.code, &expected, &*lent) { return Err(format!("the library differs on {op:?}")); }
    if matches!(op, Op::Satisfied { handles, .. } if handles.len() > LINE_HANDLES) {
        return Ok(Entry { text: String::new(), shows: vec![], code: None });
    }
    let (letter, arguments) = line(op);
    let call = if let Op::Call { num, .. } = op { CALLS.contains(num).then_some(*num) } else { None };
    let mut shows = vec![Shown::Code { name: x.name, call, code: answer.code }];
    if let (false, Some(what)) = (refused, what(&answer.out)) { shows.push(Shown::Out { name: x.name, what }); }
    if let Some(what) = limit(op, answer.code, o) { shows.push(Shown::Out { name: x.name, what }); }
    Ok(Entry { text: format!("{letter} {:x} {:x}{arguments}\n", answer.code, hash(&expected, lent)), shows, code: Some(answer.code) })
}

fn sequence(seed: u64, profile: usize) -> Result<Sequence, String> {
    let mut g = Gen::new(seed, Some(profile));
    let (mut o, mut lent) = (Oracle::new(), zeros());
    let chosen = Chosen::all();
    let mut s = Sequence { profile, seed, entries: vec![] };
    while let Some(op) = g.next(&o) {
        s.entries.push(match chosen.operation(&op) {
            Some(x) => operation(x, &op, &mut o, &mut lent)?,
            None => {
                o.apply(&op);
                let before = lent.clone();
                lent.follow(&o)?;
                // before the fresh start there is no state
                if s.entries.iter().all(|e| e.code.is_none()) { lent.block.clone_from(&before.block); }
                Entry { text: changes(&before, &lent), shows: vec![], code: None }
            }
        });
    }
    for (n, e) in s.entries.iter_mut().enumerate() {
        for i in 0..e.shows.len() {
            if let Shown::Code { name, call, code } = e.shows[i] { e.shows.push(Shown::InProfile { profile, name, call, code }); }
        }
        if n == ENOUGH { e.shows.push(Shown::Profile(profile)); }
    }
    Ok(s)
}

impl Sequence {
    fn head(&self) -> String { format!("r {:x} {:x}\n", self.profile, self.seed) }

    /// how many entries beyond `from` show most by the byte, and how much by the byte.
    fn best(&self, from: usize, seen: &BTreeSet<Shown>, room: usize) -> Option<(usize, f64)> {
        let mut bytes = if from == 0 { self.head().len() } else { 0 };
        let (mut new, mut worth, mut best) = (BTreeSet::new(), 0.0, None);
        for (i, e) in self.entries.iter().enumerate().skip(from) {
            bytes += e.text.len();
            if bytes > room { break; }
            for x in e.shows.iter().filter(|x| !seen.contains(x)) { if new.insert(*x) { worth += x.weight(); } }
            let rate = worth / bytes as f64;
            if worth > 0.0 && best.is_none_or(|(_, r)| rate > r) { best = Some((i + 1, rate)); }
        }
        best
    }
}

/// the beginnings of sequences that show most, as a length for each, within this many bytes.
fn choose(sequences: &[Sequence], max: usize) -> (Vec<usize>, BTreeSet<Shown>) {
    let (mut kept, mut seen, mut room) = (vec![0; sequences.len()], BTreeSet::new(), max);
    loop {
        let found = sequences.iter().enumerate().filter_map(|(i, s)| s.best(kept[i], &seen, room).map(|(n, rate)| (i, n, rate)));
        let Some((i, n, _)) = found.max_by(|a, b| a.2.total_cmp(&b.2)) else { return (kept, seen) };
        let s = &sequences[i];
        let added = &s.entries[kept[i]..n];
        room -= added.iter().map(|e| e.text.len()).sum::<usize>() + if kept[i] == 0 { s.head().len() } else { 0 };
        seen.extend(added.iter().flat_map(|e| e.shows.iter().copied()));
        kept[i] = n;
    }
}

/// what the sample shows, a line each, and what the sequences show beyond it.
fn print_shown(sequences: &[Sequence], seen: &BTreeSet<Shown>) {
    let all: BTreeSet<Shown> = sequences.iter().flat_map(|s| s.entries.iter().flat_map(|e| e.shows.iter().copied())).collect();
    let mut codes: BTreeMap<String, Vec<String>> = BTreeMap::new();
    for x in &all {
        let mark = if seen.contains(x) { "" } else { " (left out)" };
        match x {
            Shown::Profile(p) => codes.entry("profiles".into()).or_default().push(format!("{}{mark}", PROFILES[*p])),
            Shown::Code { name, call, code } => codes.entry(call.map_or(name.to_string(), |n| format!("{name} {n:02x}"))).or_default().push(format!("{code}{mark}")),
            Shown::Out { name, what } => codes.entry(name.to_string()).or_default().push(format!("{what}{mark}")),
            Shown::InProfile { .. } => {}
        }
    }
    for (name, list) in codes { println!("{name}: {}", list.join(", ")); }
    let numbers = |set: &BTreeSet<Shown>| set.iter().filter(|x| matches!(x, Shown::InProfile { .. })).count();
    println!("numbers of operations by profile: {} of {}", numbers(seen), numbers(&all));
}

/// the record, as the program's standard input, and what the program is to write, as its file `stdout`.
pub fn record(dir: &std::path::Path, seed: u64, count: u64, max: usize) -> Result<(), String> {
    let mut sequences = Vec::new();
    for s in seed..seed + count {
        for (p, name) in PROFILES.iter().enumerate() { sequences.push(sequence(s, p).map_err(|e| format!("seed {s} profile {name}: {e}"))?); }
    }
    let operations = OPERATIONS.iter().map(|x| x.name).collect::<Vec<_>>().join(", ");
    let mut text = format!("# driver record --seed {seed} --count {count} --max {max}\n# operations: {operations}\n");
    let (kept, seen) = choose(&sequences, max - text.len());
    let mut counts: BTreeMap<u32, u32> = BTreeMap::new();
    for (s, n) in sequences.iter().zip(&kept).filter(|(_, n)| **n > 0) {
        text += &s.head();
        for e in &s.entries[..*n] {
            text += &e.text;
            if let Some(code) = e.code { *counts.entry(code).or_default() += 1; }
        }
    }
    let profiles = sequences.iter().zip(&kept).filter(|(_, n)| **n > 0).map(|(s, _)| s.profile).collect::<BTreeSet<_>>().len();
    let calls = seen.iter().filter_map(|x| if let Shown::Code { call, .. } = x { *call } else { None }).collect::<BTreeSet<_>>().len();
    let mut written = format!("replay: {} operations of {profiles} profiles, {calls} guest calls, 0 differing\n", counts.values().sum::<u32>());
    for (code, n) in &counts { writeln!(written, "{n} answered {code}").unwrap(); }
    for (name, content) in [("stdin", &text), ("stdout", &written)] { std::fs::write(dir.join(name), content).map_err(|e| e.to_string())?; }
    println!("{} bytes, {} sequences", text.len(), kept.iter().filter(|n| **n > 0).count());
    print_shown(&sequences, &seen);
    print!("{written}");
    Ok(())
}
