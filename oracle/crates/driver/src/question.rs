//! question 2 of document 01 on bytes: what the Rust's state cannot say is asked here, the rest is `Oracle::unsound`.
use crate::codec;
use crate::lent::Lent;
use crate::state::{Object, State};
use oracle::{Oracle, OBJECTS, RECORDS};

/// the one block of its state, chains that end and cover, rising handles. `s` is what the block says.
pub fn formed(b: &[u8], s: &State) -> Result<(), String> {
    let again = codec::encode(s);
    if again != b {
        let at = (0..codec::BLOCK).find(|&i| again[i] != b[i]).unwrap();
        return Err(format!("unused byte {at} is not zero"));
    }
    let free = s.free_chain();
    let dead = s.slots.iter().filter(|x| matches!(x.object, Object::Free { .. })).count();
    let last = match free.last() { None => s.first_free, Some(&o) => match s.slots[o as usize - 1].object { Object::Free { next } => next, _ => 0 } };
    let mut seen = [false; OBJECTS];
    let twice = free.iter().any(|&o| std::mem::replace(&mut seen[o as usize - 1], true));
    if last != 0 || free.len() != dead || twice { return Err("free chain".into()); }
    if s.slots.iter().any(|x| matches!(x.object, Object::Free { .. }) && x.refcount != 0) { return Err("count of a dead slot".into()); }
    let mut seen = [false; RECORDS];
    let firsts = s.slots.iter().filter_map(|x| match x.object { Object::Arbiter { first } => Some(first), _ => None });
    for (i, first) in [s.first_free_record].into_iter().chain(firsts).enumerate() {
        let chain = s.record_chain(first);
        if chain.last().map_or(first, |&r| s.records[r as usize - 1].next) != 0 { return Err("record chain leaves the records".into()); }
        let mut pairs = Vec::new();
        for r in chain {
            if std::mem::replace(&mut seen[r as usize - 1], true) { return Err(format!("record {r} twice")); }
            let record = s.records[r as usize - 1];
            let pair = (record.thread, record.address);
            if i == 0 { if pair != (0, 0) { return Err("free record in use".into()); } continue; }
            if pairs.contains(&pair) { return Err("the same record twice in one arbiter".into()); }
            pairs.push(pair);
        }
    }
    if seen.contains(&false) { return Err("record on no chain".into()); }
    if s.handles.windows(2).any(|w| w[0].0 >= w[1].0) { return Err("handles do not rise".into()); }
    if s.handles.iter().map(|h| h.1).chain(s.threads.iter().flat_map(|t| t.wait_objects.iter().copied())).any(|o| o == 0) { return Err("object 0 named".into()); }
    let unknown = |t: usize| s.kept[t] != 0 && t >= s.threads.len();
    if (0..s.kept.len()).any(unknown) { return Err("object kept for no thread".into()); }
    Ok(())
}

/// what is lent, in the oracle, or why question 2 turns the block away.
pub fn sound(lent: &Lent) -> Result<Oracle, String> {
    let s = codec::decode(&lent.block)?;
    formed(&lent.block, &s)?;
    let mut o = lent.oracle();
    s.load(&mut o, &lent.contexts());
    match o.first_fault() { None => Ok(o), Some(why) => Err(why) }
}

/// `sound` by way of the lines of a dump, to hold the direct way to it.
pub fn sound_by_text(lent: &Lent) -> Result<Oracle, String> {
    formed(&lent.block, &codec::decode(&lent.block)?)?;
    let lines: Vec<_> = lent.lines()?.into_iter().filter(|(key, _)| !key.starts_with('W')).collect();
    let mut o = lent.oracle();
    oracle::state::load(&mut o, &lines);
    match o.unsound().into_iter().find(|b| !b.starts_with("(habit)")) { None => Ok(o), Some(why) => Err(why) }
}
