//! the library beside the original, operation by operation.
use crate::bytes::EDITS;
use crate::codec;
use crate::damage::{settle_tls, FAULTS};
use crate::figures::{Figure, Figures, Source};
use crate::lent::{first_difference, random_bytes, same, Lent, CONTEXT};
use crate::port::{Chosen, Operation, OPERATIONS};
use crate::question::{formed, sound, sound_by_text};
use crate::rich::{rich, Size};
use crate::state::State;
use oracle::gen::{Gen, Rng, PROFILES};
use oracle::text::op_line;
use oracle::{accepted, Answer, Judged, Op, Oracle, Out, CALLS};
use std::panic::{catch_unwind, AssertUnwindSafe};

/// what `compare` was asked for.
pub struct Task {
    pub profile: Option<usize>,
    pub chosen: Chosen,
    /// compares the lines of the dumps too.
    pub text: bool,
}

/// one sequence under way.
struct Run<'a> { task: &'a Task, r: Rng, f: &'a mut Figures }

fn copy(o: &Oracle) -> Oracle { Oracle { sys: o.sys.dup(), default_status: o.default_status, panics: vec![] } }

/// rows of places without a thread stay as they were lent; a fresh start zeroes them.
fn odd_bank_row(o: &Oracle, before: &Lent, after: &Lent, starts_fresh: bool) -> Option<usize> {
    let rows = before.bank.chunks(CONTEXT).zip(after.bank.chunks(CONTEXT)).enumerate().skip(o.sys.kernel.threads.len());
    rows.into_iter().find(|(_, (b, a))| if starts_fresh { a.iter().any(|x| *x != 0) } else { a != b }).map(|(row, _)| row)
}

impl Run<'_> {
    /// one operation of the library on both sides: number, answer slice and every lent byte. `lent` is a copy of `before`, and the
    /// library gets it. `refused`: question 2 says no. Gives what the original left, unless the operation only looks or is refused.
    fn both(&mut self, x: &Operation, op: &Op, o: &Oracle, before: &Lent, lent: &mut Lent, refused: bool) -> Result<Option<Oracle>, String> {
        let untouched = random_bytes(&mut self.r, x.answer_len);
        let mut answer = untouched.clone();
        let code = (x.call)(op, lent, &mut answer);
        let Judged { answer: Answer { code: expected, out }, after, odd } =
            if refused { Judged { answer: Answer { code: 2, out: Out::Nothing }, after: None, odd: None } } else { o.judge(op) };
        let call = if let Op::Call { num, .. } = op { CALLS.contains(num).then_some(*num) } else { None };
        self.f.add(Figure::Answered { name: x.name, call, code: expected });
        let refusal = !accepted(code);
        let after = after.map(|sys| Oracle { sys, default_status: o.status_after(op), panics: vec![] });
        let fault = if let Some(odd) = odd { odd }
            else if code != expected { format!("original {expected}, library {code}") }
            else if refusal && answer != untouched { format!("answered {code}, and the answer slice changed") }
            else if (refusal || x.reads_only) && *lent != *before { format!("answered {code}, and lent memory changed") }
            else if refusal { return Ok(None) }
            else if answer != (x.answer)(&out) { format!("original {out:?}, library {answer:02x?}") }
            else if x.reads_only { return Ok(None) }
            else {
                let after = after.expect("an operation that does more than look");
                match self.left(&after, before, lent, x.starts_fresh) { Ok(()) => return Ok(Some(after)), Err(fault) => fault }
            };
        Err(format!("{}: {fault}", op_line(op)))
    }

    /// what an accepted operation left: the original's state, bank rows of no thread as they were, and a sound block. Question 2
    /// is asked of the original's state, since the block says the same.
    fn left(&self, o: &Oracle, before: &Lent, lent: &Lent, starts_fresh: bool) -> Result<(), String> {
        let s = codec::decode(&lent.block).map_err(|e| format!("block does not read: {e}"))?;
        self.alike(o, lent, &s)?;
        if let Some(row) = odd_bank_row(o, before, lent, starts_fresh) { return Err(format!("bank row {row} of no thread")); }
        let unsound = |why: String| format!("left unsound: {why}");
        formed(&lent.block, &s).map_err(unsound)?;
        if let Some(why) = o.first_fault() { return Err(unsound(why)); }
        if self.task.text { sound_by_text(lent).map_err(unsound)?; }
        Ok(())
    }

    /// that the oracle's state is what is lent, or the first line that they do not share. `s` is what the block says.
    fn alike(&self, o: &Oracle, lent: &Lent, s: &State) -> Result<(), String> {
        let alike = same(o, lent, s);
        if alike && !self.task.text { return Ok(()); }
        match first_difference(o, lent) { Some(line) => Err(line), None if alike => Ok(()), None => Err("the states differ, but none of their lines".into()) }
    }

    /// what the library's operations say of a block: `why` question 2 turns it away, or the state it holds.
    fn tries(&mut self, o: &Oracle, why: Option<String>, lent: &Lent, source: Source) -> Result<(), String> {
        self.f.add(Figure::Question2 { sound: why.is_none(), source });
        let mut here = lent.clone();
        for x in OPERATIONS {
            let Some(op) = (x.try_on)(&mut self.r, lent) else { continue };
            if self.task.chosen.operation(&op).is_none() { continue; }
            let refused = why.is_some() && !x.starts_fresh;
            // the arguments of a call are in the processor before it
            let with_arguments = matches!(op, Op::Call { .. }).then(|| { here.lend(&op); here.clone() });
            let run = self.both(x, &op, o, with_arguments.as_ref().unwrap_or(lent), &mut here, refused);
            run.map_err(|e| format!("{source} ({}): {e}", why.as_deref().unwrap_or("sound")))?;
            if !x.reads_only { here.copy_from(lent); }
        }
        Ok(())
    }

    /// a state of the oracle as a block.
    fn state(&mut self, o: &Oracle, lent: &Lent, source: Source) -> Result<(), String> {
        let mut here = lent.clone();
        if here.follow(o).is_err() { self.f.add(Figure::NoRoom(source)); return Ok(()); }
        self.tries(o, o.first_fault(), &here, source)
    }

    /// a block whose bytes were written by hand.
    fn block(&mut self, lent: &Lent, source: Source) -> Result<(), String> {
        let found = sound(lent);
        if self.task.text {
            let agree = match (&found, sound_by_text(lent)) { (Ok(a), Ok(b)) => a.dump() == b.dump(), (Err(a), Err(b)) => *a == b, _ => false };
            if !agree { return Err(format!("{source}: loaded from the block and from its lines, the states differ")); }
        }
        let (o, why) = match found { Ok(o) => (o, None), Err(why) => (lent.oracle(), Some(why)) };
        self.tries(&o, why, lent, source)
    }

    fn edited(&mut self, lent: &Lent) -> Result<(), String> {
        let (name, edit) = EDITS[self.r.below(EDITS.len() as u64) as usize];
        let mut other = lent.clone();
        // an edit may by chance write what is there
        for _ in 0..10 { if other.block == lent.block { edit(&mut other.block, &mut self.r); } }
        self.block(&other, Source("bytes", name))
    }

    /// faults and other sound states near this one.
    fn near(&mut self, o: &Oracle, lent: &Lent) -> Result<(), String> {
        let mut other = copy(o);
        let tick = self.r.next() >> self.r.below(64);
        oracle::state::perturb(&mut other.sys, &mut self.r, tick, 0x1000);
        settle_tls(&mut other);
        self.state(&other, lent, Source("perturbed", ""))?;
        let (name, fault) = FAULTS[self.r.below(FAULTS.len() as u64) as usize];
        let mut other = copy(o);
        if fault(&mut other, &mut self.r).is_some() {
            settle_tls(&mut other);
            self.state(&other, lent, Source("state", name))?;
        }
        self.edited(lent)
    }

    /// blocks that no operation led to.
    fn unreached(&mut self) -> Result<(), String> {
        let mut lent = Lent::random(&mut self.r);
        self.block(&lent, Source("bytes", "random"))?;
        let size = Size::random(&mut self.r);
        let s = rich(&mut self.r, &size);
        lent.block = codec::encode(&s);
        lent.set_window(crate::rich::ADDRESSES, 64, &s.handles.iter().map(|h| h.0).collect::<Vec<_>>());
        self.block(&lent, Source("built", ""))?;
        for _ in 0..200 { self.edited(&lent)?; }
        Ok(())
    }

    fn sequence(&mut self, mut g: Gen) -> Result<(), String> {
        self.f.add(Figure::Sequences);
        self.f.add(Figure::Profile(PROFILES[g.profile]));
        self.unreached()?;
        let mut o = Oracle::new();
        let mut lent = Lent::random(&mut self.r);
        while let Some(op) = g.next(&o) {
            match self.task.chosen.operation(&op) {
                Some(x) => {
                    if x.starts_fresh { lent.block = random_bytes(&mut self.r, codec::BLOCK); }
                    o.lend(&op);
                    lent.lend(&op);
                    let before = lent.clone();
                    if let Some(after) = self.both(x, &op, &o, &before, &mut lent, false)? { o = after; }
                }
                // done for the library
                None => {
                    o.apply(&op);
                    lent.follow(&o)?;
                    self.alike(&o, &lent, &codec::decode(&lent.block)?).map_err(|line| format!("{}, encoded: {line}", op_line(&op)))?;
                }
            }
            self.tries(&o, o.first_fault(), &lent, Source("sequence", ""))?;
            if self.r.pct(30) { self.near(&o, &lent)?; }
        }
        Ok(())
    }
}

fn panic_text(e: Box<dyn std::any::Any + Send>) -> String {
    let text = e.downcast_ref::<String>().cloned().or_else(|| e.downcast_ref::<&str>().map(|s| s.to_string()));
    format!("panic: {}", text.unwrap_or_default())
}

pub fn compare(seed: u64, count: u64, task: &Task) -> Figures {
    let mut f = Figures::default();
    for s in seed..seed + count {
        let g = Gen::new(s, task.profile);
        let profile = PROFILES[g.profile];
        // the driver's own choices, so that the sequence is the one that `oracle gen` prints
        let mut run = Run { task, r: Rng::new(!s), f: &mut f };
        let done = catch_unwind(AssertUnwindSafe(|| run.sequence(g))).unwrap_or_else(|e| Err(panic_text(e)));
        if let Err(line) = done {
            f.differing += 1;
            println!("seed {s} profile {profile}: {line}");
        }
    }
    f
}
