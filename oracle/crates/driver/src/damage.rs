//! faults in the oracle's state, one for each thing that question 2 asks and the Rust's state can say. A fault may by
//! chance leave a sound state: `Oracle::unsound` says which.
use oracle::checked::slot;
use oracle::gen::Rng;
use oracle::Oracle;
use serde::{part_mut, Parts};
use std::collections::{BTreeMap, BTreeSet};
use zakuro_core::kernel::object::{KObject, ObjectId};
use zakuro_core::kernel::thread::ThreadStatus;

type Fault = fn(&mut Oracle, &mut Rng) -> Option<()>;

pub const FAULTS: [(&str, Fault); 23] = [
    ("count", count),
    ("object without a name", no_name),
    ("handle of a dead slot", handle_of_dead),
    ("handle of another object", handle_of_another),
    ("handle more of a dead slot", handle_more),
    ("handle number", handle_number),
    ("next handle", next_handle),
    ("Running", running),
    ("current", current),
    ("status", status),
    ("priority", priority),
    ("owner", owner),
    ("record's thread", record_thread),
    ("TLS slot", tls),
    ("next TLS slot", next_tls),
    ("list place more", list_more),
    ("list place of a dead slot", list_of_dead),
    ("free list", free_list),
    ("kept object", kept),
    ("kept for another thread", kept_for_another),
    ("process object", process_object),
    ("thread object", thread_object),
    ("thread object more", thread_object_more),
];

fn entries(o: &mut Oracle) -> &mut BTreeMap<u32, ObjectId> { part_mut(&mut o.sys.kernel.handles, "entries") }
fn next(o: &mut Oracle) -> &mut u32 { part_mut(&mut o.sys.kernel.handles, "next") }
fn kept_objects(o: &mut Oracle) -> &mut BTreeMap<u32, ObjectId> { part_mut(&mut o.sys.kernel, "thread_objects") }
fn refcount(o: &mut Oracle, object: u32) -> &mut u32 {
    part_mut(o.sys.kernel.objects.part_mut("slots").unwrap().item_mut(object as usize).unwrap(), "refcount")
}

/// the block has no free TLS slots of its own: they are what live threads leave below the next.
pub fn settle_tls(o: &mut Oracle) {
    let next = o.sys.kernel.oracle_private().next_tls_slot;
    let held: Vec<u32> = o.sys.kernel.threads.iter().filter(|t| t.status != ThreadStatus::Dead).map(|t| t.tls).collect();
    *part_mut::<BTreeSet<u32>>(&mut o.sys.kernel, "free_tls") = (0..next).filter(|s| !held.contains(s)).collect();
}

fn live(o: &Oracle) -> Vec<u32> { o.sys.kernel.objects.iter().map(|(id, _)| id.0).collect() }
fn pick(r: &mut Rng, v: &[u32]) -> Option<u32> { (!v.is_empty()).then(|| r.pick(v)) }
/// a slot that is not live: freed, never used, or none at all.
fn dead(o: &Oracle, r: &mut Rng) -> u32 {
    let live = live(o);
    let v: Vec<u32> = (0..128).filter(|s| !live.contains(s)).chain([128, 1 << 20, u32::MAX - 1]).collect();
    r.pick(&v)
}
/// a thread number, or one that is not there.
fn any_thread(o: &Oracle, r: &mut Rng) -> u32 { let n = o.sys.kernel.threads.len() as u64; if r.pct(3) { u32::MAX } else { r.below(n + 2) as u32 } }
fn some_thread(o: &Oracle, r: &mut Rng) -> Option<usize> { let n = o.sys.kernel.threads.len() as u64; (n > 0).then(|| r.below(n) as usize) }
fn add_to_count(o: &mut Oracle, object: u32) { let count = refcount(o, object); *count = count.wrapping_add(1); }

fn count(o: &mut Oracle, r: &mut Rng) -> Option<()> {
    let at = pick(r, &live(o))?;
    let was = o.sys.kernel.oracle_refcount(slot(at + 1));
    let now = r.pick(&[was + 1, was.saturating_sub(1), 0, u32::MAX]);
    *refcount(o, at) = now;
    Some(())
}
fn no_name(o: &mut Oracle, _: &mut Rng) -> Option<()> { o.sys.kernel.objects.insert(KObject::ResourceLimit); Some(()) }
fn entry(o: &mut Oracle, r: &mut Rng, f: impl FnOnce(&mut (u32, ObjectId))) -> Option<()> {
    let n = o.sys.kernel.handles.len() as u64;
    if n == 0 { return None; }
    let at = r.below(n) as usize;
    let mut list: Vec<(u32, ObjectId)> = std::mem::take(entries(o)).into_iter().collect();
    f(&mut list[at]);
    *entries(o) = list.into_iter().collect();
    Some(())
}
fn handle_of_dead(o: &mut Oracle, r: &mut Rng) -> Option<()> { let d = dead(o, r); entry(o, r, |e| e.1 = ObjectId(d)) }
fn handle_of_another(o: &mut Oracle, r: &mut Rng) -> Option<()> { let l = pick(r, &live(o))?; entry(o, r, |e| e.1 = ObjectId(l)) }
/// counted nowhere, so that only what it names is at fault.
fn handle_more(o: &mut Oracle, r: &mut Rng) -> Option<()> {
    let (d, handle) = (dead(o, r), *next(o));
    entries(o).insert(handle, ObjectId(d));
    *next(o) = handle.wrapping_add(1);
    Some(())
}
fn handle_number(o: &mut Oracle, r: &mut Rng) -> Option<()> {
    let next = *next(o);
    let n = r.pick(&[0, 0xFFFF, next, next + 1, 0x10000, next - 1, 0x10000 + (next - 0x10000) / 2]);
    if o.sys.kernel.handles.resolve(n).is_some() { return None; }
    entry(o, r, |e| e.0 = n)
}
fn next_handle(o: &mut Oracle, r: &mut Rng) -> Option<()> {
    let last = o.sys.kernel.handles.iter().map(|(h, _)| h).max().unwrap_or(0xFFFF);
    let n = r.pick(&[0, 0xFFFF, last - 1, last, last + 1, 0xFFFF_8000, 0xFFFF_8001, u32::MAX]);
    *next(o) = n;
    Some(())
}
fn running(o: &mut Oracle, r: &mut Rng) -> Option<()> { let t = some_thread(o, r)?; o.sys.kernel.threads[t].status = ThreadStatus::Running; Some(()) }
fn current(o: &mut Oracle, r: &mut Rng) -> Option<()> { let t = any_thread(o, r); o.sys.kernel.current_thread = if r.pct(20) { None } else { Some(t) }; Some(()) }
fn status(o: &mut Oracle, r: &mut Rng) -> Option<()> {
    use ThreadStatus::*;
    let t = some_thread(o, r)?;
    o.sys.kernel.threads[t].status = r.pick(&[Dead, Dead, Running, Ready, Sleeping, WaitSync, WaitArbiter, Dormant]);
    Some(())
}
fn priority(o: &mut Oracle, r: &mut Rng) -> Option<()> { let t = some_thread(o, r)?; o.sys.kernel.threads[t].priority = r.pick(&[0, 62, 63, 64, 65, u32::MAX]); Some(()) }
fn owner(o: &mut Oracle, r: &mut Rng) -> Option<()> {
    let v: Vec<u32> = o.sys.kernel.objects.iter().filter(|(_, x)| matches!(x, KObject::Mutex(_))).map(|(i, _)| i.0).collect();
    let (at, t) = (pick(r, &v)?, any_thread(o, r));
    if let Some(KObject::Mutex(m)) = o.sys.kernel.objects.get_mut(ObjectId(at)) { m.owner = Some(t); }
    Some(())
}
fn record_thread(o: &mut Oracle, r: &mut Rng) -> Option<()> {
    let v: Vec<u32> = o.sys.kernel.objects.iter().filter(|(_, x)| matches!(x, KObject::AddressArbiter(_))).map(|(i, _)| i.0).collect();
    let (at, t) = (pick(r, &v)?, any_thread(o, r));
    if let Some(KObject::AddressArbiter(a)) = o.sys.kernel.objects.get_mut(ObjectId(at)) {
        let place = r.below(a.waiters.len() as u64 + 1) as usize;
        a.waiters.insert(place, (t, 0x1000 + 4 * r.below(4) as u32));
    }
    Some(())
}
fn tls(o: &mut Oracle, r: &mut Rng) -> Option<()> { let t = some_thread(o, r)?; o.sys.kernel.threads[t].tls = r.pick(&[0, 1, 2, 3, 31, 32, u32::MAX]); Some(()) }
fn next_tls(o: &mut Oracle, r: &mut Rng) -> Option<()> {
    let most = o.sys.kernel.threads.iter().map(|t| t.tls).max().unwrap_or(0);
    let n = r.pick(&[0, most.min(40), most.min(40) + 1, 31, 32, 33]);
    *part_mut(&mut o.sys.kernel, "next_tls_slot") = n;
    Some(())
}
/// counted, so that only the place is at fault, if it is one.
fn list_more(o: &mut Oracle, r: &mut Rng) -> Option<()> {
    let (t, at) = (some_thread(o, r)?, pick(r, &live(o))?);
    o.sys.kernel.threads[t].wait_objects.push(ObjectId(at));
    add_to_count(o, at);
    Some(())
}
fn list_of_dead(o: &mut Oracle, r: &mut Rng) -> Option<()> {
    let (t, at) = (some_thread(o, r)?, dead(o, r));
    o.sys.kernel.threads[t].status = ThreadStatus::WaitSync;
    if o.sys.kernel.current_thread == Some(t as u32) { o.sys.kernel.current_thread = None; }
    o.sys.kernel.threads[t].wait_objects.push(ObjectId(at));
    Some(())
}
fn free_list(o: &mut Oracle, r: &mut Rng) -> Option<()> {
    let free = o.free_list();
    let (at, how, odd) = (r.below(free.len() as u64) as usize, r.below(4), dead(o, r));
    let l = pick(r, &live(o));
    if free.is_empty() && how < 2 { return None; }
    let odd = if odd < 128 { 128 } else { odd };
    let l = if how == 2 { l? } else { 0 };
    let free: &mut Vec<u32> = part_mut(&mut o.sys.kernel.objects, "free");
    match how {
        0 => { free.remove(at); }
        1 => free.push(free[at]),
        2 => free.push(l),
        _ => free.push(odd),
    }
    Some(())
}
fn kept(o: &mut Oracle, r: &mut Rng) -> Option<()> {
    let (t, at, d) = (any_thread(o, r) % 32, pick(r, &live(o)), dead(o, r));
    let object = if r.pct(30) { d } else { at? };
    let (drop, counted) = (r.pct(20), r.pct(50));
    if drop { kept_objects(o).remove(&t); } else { kept_objects(o).insert(t, ObjectId(object)); }
    if !drop && counted && object < 128 && Some(object) == at { add_to_count(o, object); }
    Some(())
}
/// an object for one thread, kept and counted for another.
fn kept_for_another(o: &mut Oracle, r: &mut Rng) -> Option<()> {
    let v: Vec<u32> = o.sys.kernel.objects.iter().filter(|(_, x)| matches!(x, KObject::Thread(_))).map(|(i, _)| i.0).collect();
    let (at, t) = (pick(r, &v)?, some_thread(o, r)? as u32);
    if kept_objects(o).contains_key(&t) { return None; }
    kept_objects(o).insert(t, ObjectId(at));
    add_to_count(o, at);
    Some(())
}
fn process_object(o: &mut Oracle, r: &mut Rng) -> Option<()> {
    let (at, d) = (pick(r, &live(o)), dead(o, r));
    let object = match r.below(4) { 0 => None, 1 => Some(d), _ => Some(at?) };
    *part_mut(&mut o.sys.kernel, "process_object") = object.map(ObjectId);
    if object == at { if let Some(x) = at { add_to_count(o, x); } }
    Some(())
}
fn thread_object(o: &mut Oracle, r: &mut Rng) -> Option<()> {
    let v: Vec<u32> = o.sys.kernel.objects.iter().filter(|(_, x)| matches!(x, KObject::Thread(_))).map(|(i, _)| i.0).collect();
    let (at, t) = (pick(r, &v)?, any_thread(o, r));
    if let Some(KObject::Thread(x)) = o.sys.kernel.objects.get_mut(ObjectId(at)) { *x = t; }
    Some(())
}
/// not kept and with a handle, so that only the thread it names is at fault, if it is.
fn thread_object_more(o: &mut Oracle, r: &mut Rng) -> Option<()> {
    let t = any_thread(o, r);
    let k = &mut o.sys.kernel;
    let object = k.objects.insert(KObject::Thread(t));
    k.handles.create(&mut k.objects, object, "");
    Some(())
}
