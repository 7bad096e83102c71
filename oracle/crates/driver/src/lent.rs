//! what the host lends: block, bank, processor and guest window.
use crate::codec;
use crate::state::State;
use oracle::gen::Rng;
use oracle::{Op, Oracle, THREADS};

pub const CONTEXT: usize = 208;
pub const BANK: usize = THREADS * CONTEXT;

#[derive(Clone, PartialEq)]
pub struct Lent { pub block: Vec<u8>, pub bank: Vec<u8>, pub processor: Vec<u8>, pub window: Vec<u8>, pub base: u32 }

pub fn random_bytes(r: &mut Rng, len: usize) -> Vec<u8> { (0..len).map(|_| r.next() as u8).collect() }

fn words(bytes: &[u8]) -> String { bytes.chunks(4).map(|c| format!("{:x}", codec::get32(c, 0))).collect::<Vec<_>>().join(" ") }

impl Lent {
    /// anything at all, as before a fresh start.
    pub fn random(r: &mut Rng) -> Lent {
        Lent { block: random_bytes(r, codec::BLOCK), bank: random_bytes(r, BANK), processor: random_bytes(r, CONTEXT), window: vec![], base: 0 }
    }

    /// becomes the oracle's state. Bank rows of threads that do not exist stay as they are.
    pub fn follow(&mut self, o: &Oracle) -> Result<(), String> {
        self.block = codec::encode(&State::of(o)?);
        for (t, row) in self.bank.chunks_mut(CONTEXT).take(o.sys.kernel.threads.len()).enumerate() {
            for (i, word) in o.bank_words(t).into_iter().enumerate() { codec::put32(row, 4 * i, word); }
        }
        for (i, word) in o.cpu_words().into_iter().enumerate() { codec::put32(&mut self.processor, 4 * i, word); }
        self.window = o.sys.memory.bytes.clone();
        self.base = o.sys.memory.base;
        Ok(())
    }

    /// a window whose words are these handles in turn, so that guest calls on built blocks find some. Every 16th is 0,
    /// so that long lists may have one that is not open.
    pub fn set_window(&mut self, base: u32, words: usize, handles: &[u32]) {
        let word = |i: usize| if i % 16 == 15 { 0 } else { handles[i % handles.len()] };
        self.window = (0..words).flat_map(|i| word(i).to_le_bytes()).collect();
        self.base = base;
    }

    /// takes over what the other is, in place.
    pub fn copy_from(&mut self, other: &Lent) {
        let Lent { block, bank, processor, window, base } = other;
        self.block.clone_from(block);
        self.bank.clone_from(bank);
        self.processor.clone_from(processor);
        self.window.clone_from(window);
        self.base = *base;
    }

    /// puts a call's arguments into the processor.
    pub fn lend(&mut self, op: &Op) {
        if let Op::Call { regs, .. } = op { for (i, word) in regs.iter().enumerate() { codec::put32(&mut self.processor, 4 * i, *word); } }
    }

    /// the bank's rows as words.
    pub fn contexts(&self) -> [[u32; 52]; THREADS] { std::array::from_fn(|t| std::array::from_fn(|i| codec::get32(&self.bank, CONTEXT * t + 4 * i))) }

    /// an oracle with this processor and window, and nothing else.
    pub fn oracle(&self) -> Oracle {
        let mut o = Oracle::new();
        o.apply(&Op::Window { base: self.base, bytes: self.window.clone() });
        o.apply(&Op::Cpu { words: Box::new(std::array::from_fn(|i| codec::get32(&self.processor, 4 * i))) });
        o
    }

    /// the lines of `Oracle::dump` without `next_event`, which is an answer.
    pub fn lines(&self) -> Result<Vec<(String, String)>, String> {
        let state = codec::decode(&self.block)?;
        let mut d = state.lines();
        for t in 0..state.threads.len() { d.push((format!("C{t}"), words(&self.bank[CONTEXT * t..][..CONTEXT]))); }
        d.push(("P".into(), words(&self.processor)));
        for (i, c) in self.window.chunks(4).enumerate() { d.push((format!("W{:x}", self.base as u64 + 4 * i as u64), words(c))); }
        Ok(d)
    }
}

fn holds(bytes: &[u8], words: &[u32; 52]) -> bool { words.iter().zip(bytes.chunks_exact(4)).all(|(w, c)| w.to_le_bytes() == c) }

/// whether the oracle's state is what is lent; `s` is what the block says.
pub fn same(o: &Oracle, lent: &Lent, s: &State) -> bool {
    State::of(o).is_ok_and(|theirs| s.same(&theirs)) && s.free_tls().eq(o.sys.kernel.oracle_private().free_tls)
        && lent.bank.chunks_exact(CONTEXT).zip(0..s.threads.len()).all(|(row, t)| holds(row, &o.bank_words(t)))
        && holds(&lent.processor, &o.cpu_words()) && lent.window == o.sys.memory.bytes && lent.base == o.sys.memory.base
}

/// the first line that the oracle's state and what is lent do not share.
pub fn first_difference(o: &Oracle, lent: &Lent) -> Option<String> {
    let ours = match lent.lines() { Ok(lines) => lines, Err(e) => return Some(format!("block does not read: {e}")) };
    let theirs: Vec<_> = o.dump().into_iter().filter(|(key, _)| key != "next_event").collect();
    let line = |l: Option<&(String, String)>| l.map_or("nothing".into(), |(k, v)| format!("{k} {v}"));
    (0..ours.len().max(theirs.len())).find(|&i| ours.get(i) != theirs.get(i))
        .map(|i| format!("original: {}\n  library:  {}", line(theirs.get(i)), line(ours.get(i))))
}
