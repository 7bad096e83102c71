//! random sound states, most of which no sequence of operations leads to.
use crate::state::{Object, Slot, State, Thread, WaitResult};
use oracle::gen::Rng;
use oracle::{HANDLES, LAST_NEXT, LIST, OBJECTS, RECORDS, THREADS};
use std::collections::BTreeSet;

/// where the addresses of records begin: 64 words.
pub const ADDRESSES: u32 = 0x1000;

pub struct Size { pub threads: usize, pub objects: usize, pub handles: usize, pub records: usize }

impl Size {
    pub const FULL: Size = Size { threads: THREADS, objects: OBJECTS, handles: HANDLES, records: RECORDS };

    pub fn random(r: &mut Rng) -> Size {
        let objects = 9 + r.below(OBJECTS as u64 - 8);
        Size { threads: 4 + r.below(29) as usize, objects: objects as usize, handles: (objects + r.below(HANDLES as u64 - objects + 1)) as usize, records: r.below(RECORDS as u64 + 1) as usize }
    }
}

fn shuffled(r: &mut Rng, n: usize) -> Vec<u32> {
    let mut v: Vec<u32> = (1..=n as u32).collect();
    for i in (1..n).rev() { v.swap(i, r.below(i as u64 + 1) as usize); }
    v
}
fn tick(r: &mut Rng) -> u64 { match r.below(4) { 0 => 0, 1 => u64::MAX, 2 => r.below(1 << 32), _ => r.next() } }

/// all kinds of objects, at least one name for each, and as many handles and records as wanted.
pub fn rich(r: &mut Rng, size: &Size) -> State {
    let mut s = State::fresh(r.next() as u32);
    s.threads = (0..size.threads).map(|_| thread(r)).collect();
    if s.threads.iter().all(|t| t.status == 0) { s.threads[0].status = 2; }
    let live: Vec<u32> = (0..size.threads as u32).filter(|t| s.threads[*t as usize].status != 0).collect();
    let slots = shuffled(r, THREADS);
    for (t, place) in s.threads.iter_mut().zip(&slots) { t.tls = place - 1; }
    let most = live.iter().map(|t| s.threads[*t as usize].tls).max().unwrap();
    s.next_tls_slot = most + 1 + r.below((THREADS as u32 - most) as u64) as u32;
    s.next_guest_id = r.next() as u32;
    (s.all_blocked, s.relief) = (r.pct(50), r.pct(50));
    if r.pct(90) {
        let t = r.pick(&live);
        s.current = Some(t);
        if r.pct(80) { s.threads[t as usize].status = 1; }
    }

    let order = shuffled(r, OBJECTS);
    let (used, free) = order.split_at(size.objects);
    for slot in &mut s.slots { *slot = Slot { object: Object::Free { next: 0 }, refcount: 0, pulsed: r.pct(8) }; }
    let mut arbiters = Vec::new();
    let mut named: BTreeSet<u32> = BTreeSet::new();
    for (i, &o) in used.iter().enumerate() {
        // each kind once, then by chance; the first thread and process objects are kept
        let kind = if i < 8 { 1 + i as u64 } else { 1 + r.below(8) };
        s.slots[o as usize - 1].object = object(r, kind, size.threads as u32, &live);
        match s.slots[o as usize - 1].object {
            Object::Thread(t) if s.kept[t as usize] == 0 && r.pct(70) => { s.kept[t as usize] = o; named.insert(o); }
            Object::Process if s.process_object == 0 => { s.process_object = o; named.insert(o); }
            Object::Arbiter { .. } => arbiters.push((o, Vec::new())),
            _ => {}
        }
    }
    s.link_free(free);

    for t in 0..size.threads {
        if s.threads[t].status != 4 { continue; }
        let n = if r.pct(30) { LIST as u64 } else { r.below(LIST as u64 + 1) };
        s.threads[t].wait_objects = (0..n).map(|_| r.pick(used)).collect();
        named.extend(&s.threads[t].wait_objects);
    }
    // what nothing names yet gets a handle first
    let mut objects: Vec<u32> = used.iter().copied().filter(|o| !named.contains(o)).collect();
    while objects.len() < size.handles { objects.push(r.pick(used)); }
    let mut handle = 0x10000;
    for object in objects { handle += r.below(3) as u32; s.handles.push((handle, object)); handle += 1; }
    s.next_handle = if r.pct(25) { LAST_NEXT } else { handle + r.below(1 << 16) as u32 };

    let mut left = size.records;
    while left > 0 {
        let at = r.below(arbiters.len() as u64) as usize;
        let record = (r.below(size.threads as u64) as u32, ADDRESSES + 4 * r.below(64) as u32);
        if !arbiters[at].1.contains(&record) { arbiters[at].1.push(record); left -= 1; }
    }
    let numbers = shuffled(r, RECORDS);
    s.link_records(&arbiters, &numbers);

    count_names(&mut s);
    s
}

/// the reference counts, from 0: handles, wait lists, kept objects.
pub fn count_names(s: &mut State) {
    let lists = s.threads.iter().flat_map(|t| t.wait_objects.iter().copied());
    let names: Vec<u32> = s.handles.iter().map(|h| h.1).chain(lists).chain(s.kept.iter().copied()).chain([s.process_object]).filter(|o| *o != 0).collect();
    for o in names { s.slots[o as usize - 1].refcount += 1; }
}

fn thread(r: &mut Rng) -> Thread {
    Thread {
        status: r.pick(&[0, 2, 3, 4, 4, 4, 5, 6]), priority: r.below(64) as u32, entry: r.next() as u32, stack_top: r.next() as u32, tls: 0,
        processor_id: r.pick(&[-2i32 as u32, 0, 1]), wait_objects: vec![], wait_all: r.pct(50), waited: r.pct(50),
        wakeup_at: r.pct(50).then(|| tick(r)), wait_address: r.pct(40).then(|| 0x1000 * r.below(3) as u32),
        wait_result: match r.below(3) { 0 => None, 1 => Some(WaitResult::TimedOut), _ => Some(WaitResult::Signaled(r.below(LIST as u64 + 1) as u32)) },
        wait_syscall: r.below(5) as u32, guest_id: r.below(100) as u32, running_since: tick(r),
    }
}

fn object(r: &mut Rng, kind: u64, threads: u32, live: &[u32]) -> Object {
    match kind {
        1 => Object::Thread(r.below(threads as u64) as u32),
        2 => Object::Event { reset: r.below(3) as u32, signaled: r.pct(50) },
        3 => Object::Mutex { owner: r.pct(60).then(|| r.pick(live)), lock_count: r.pick(&[0, 0, 1, 2, u32::MAX - LIST as u32, u32::MAX]) },
        4 => Object::Semaphore { count: r.pick(&[0, 1, -1, i32::MIN, i32::MAX]), max_count: r.pick(&[0, 1, 3, i32::MIN, i32::MAX]) },
        5 => Object::Timer { reset: r.below(3) as u32, signaled: r.pct(50), fire_at: r.pct(60).then(|| tick(r)), interval: r.pick(&[0, 0, 1, 1000, u64::MAX]) },
        6 => Object::Arbiter { first: 0 },
        7 => Object::Process,
        _ => Object::ResourceLimit,
    }
}
