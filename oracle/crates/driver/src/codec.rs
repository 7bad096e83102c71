//! the 16,384 bytes of a state block, field by field as docs/STATE.md lays them out.
use crate::state::{Object, Record, Slot, State, Thread, WaitResult};
use oracle::{HANDLES, LIST, OBJECTS, RECORDS, THREADS};

pub const BLOCK: usize = 16_384;
pub const THREAD: usize = 160;
/// where the list of a thread record begins, and the spare bytes after it.
pub const WAIT_OBJECTS: usize = 80;
pub const THREAD_SPARE: usize = WAIT_OBJECTS + 4 * LIST;
pub const SLOT: usize = 40;
pub const ENTRY: usize = 8;
pub const RECORD: usize = 12;
pub const THREADS_AT: usize = 128;
pub const SLOTS_AT: usize = 5_248;
pub const HANDLES_AT: usize = 10_368;
pub const RECORDS_AT: usize = 12_416;
pub const KEPT_AT: usize = 13_184;

pub fn get32(b: &[u8], at: usize) -> u32 { u32::from_le_bytes(b[at..at + 4].try_into().unwrap()) }
pub fn put32(b: &mut [u8], at: usize, word: u32) { b[at..at + 4].copy_from_slice(&word.to_le_bytes()); }
fn get64(b: &[u8], at: usize) -> u64 { u64::from_le_bytes(b[at..at + 8].try_into().unwrap()) }
fn put64(b: &mut [u8], at: usize, tick: u64) { b[at..at + 8].copy_from_slice(&tick.to_le_bytes()); }

pub fn encode(s: &State) -> Vec<u8> {
    let mut b = vec![0; BLOCK];
    let head = [
        s.status_word, s.threads.len() as u32, s.current.is_some() as u32, s.current.unwrap_or(0), s.next_tls_slot, s.next_guest_id,
        s.all_blocked as u32, s.relief as u32, s.first_free, s.first_free_record, s.handles.len() as u32, s.next_handle, s.process_object,
    ];
    for (i, word) in head.into_iter().enumerate() { put32(&mut b, 4 * i, word); }
    for (i, t) in s.threads.iter().enumerate() { put_thread(&mut b[THREADS_AT + THREAD * i..][..THREAD], t); }
    for (i, slot) in s.slots.iter().enumerate() { put_slot(&mut b[SLOTS_AT + SLOT * i..][..SLOT], slot); }
    for (i, (handle, object)) in s.handles.iter().enumerate() {
        put32(&mut b, HANDLES_AT + ENTRY * i, *handle);
        put32(&mut b, HANDLES_AT + ENTRY * i + 4, *object);
    }
    for (i, r) in s.records.iter().enumerate() {
        for (k, word) in [r.thread, r.address, r.next].into_iter().enumerate() { put32(&mut b, RECORDS_AT + RECORD * i + 4 * k, word); }
    }
    for (i, object) in s.kept.iter().enumerate() { put32(&mut b, KEPT_AT + 4 * i, *object); }
    b
}

fn put_thread(b: &mut [u8], t: &Thread) {
    let (result, index) = match t.wait_result { None => (0, 0), Some(WaitResult::Signaled(i)) => (1, i), Some(WaitResult::TimedOut) => (2, 0) };
    let words = [
        t.status, t.priority, t.entry, t.stack_top, t.tls, t.processor_id, t.wait_objects.len() as u32, t.wait_all as u32, t.waited as u32,
        t.wakeup_at.is_some() as u32, t.wait_address.is_some() as u32, t.wait_address.unwrap_or(0), result, index, t.wait_syscall, t.guest_id,
    ];
    for (i, word) in words.into_iter().enumerate() { put32(b, 4 * i, word); }
    put64(b, 64, t.wakeup_at.unwrap_or(0));
    put64(b, 72, t.running_since);
    for (i, object) in t.wait_objects.iter().enumerate() { put32(b, WAIT_OBJECTS + 4 * i, *object); }
}

fn put_slot(b: &mut [u8], s: &Slot) {
    let (kind, words, x, y) = match s.object {
        Object::Free { next } => (0, [next, 0, 0], 0, 0),
        Object::Thread(t) => (1, [t, 0, 0], 0, 0),
        Object::Event { reset, signaled } => (2, [reset, signaled as u32, 0], 0, 0),
        Object::Mutex { owner, lock_count } => (3, [owner.is_some() as u32, owner.unwrap_or(0), lock_count], 0, 0),
        Object::Semaphore { count, max_count } => (4, [count as u32, max_count as u32, 0], 0, 0),
        Object::Timer { reset, signaled, fire_at, interval } => (5, [reset, signaled as u32, fire_at.is_some() as u32], fire_at.unwrap_or(0), interval),
        Object::Arbiter { first } => (6, [first, 0, 0], 0, 0),
        Object::Process => (7, [0; 3], 0, 0),
        Object::ResourceLimit => (8, [0; 3], 0, 0),
    };
    for (i, word) in [kind, s.refcount, s.pulsed as u32, words[0], words[1], words[2]].into_iter().enumerate() { put32(b, 4 * i, word); }
    put64(b, 24, x);
    put64(b, 32, y);
}

/// what the block says, or a number in it that means nothing. What is unused is not looked at.
pub fn decode(b: &[u8]) -> Result<State, String> {
    let word = |at: usize| get32(b, at);
    let flag = |at: usize| flag(word(at), at);
    let count = |at: usize, most: usize| if word(at) as usize <= most { Ok(word(at) as usize) } else { Err(format!("count at {at}")) };
    Ok(State {
        status_word: word(0),
        threads: all(count(4, THREADS)?, |i| get_thread(&b[THREADS_AT + THREAD * i..][..THREAD]))?,
        current: flag(8)?.then_some(word(12)),
        next_tls_slot: word(16),
        next_guest_id: word(20),
        all_blocked: flag(24)?,
        relief: flag(28)?,
        first_free: word(32),
        first_free_record: word(36),
        handles: (0..count(40, HANDLES)?).map(|i| (word(HANDLES_AT + ENTRY * i), word(HANDLES_AT + ENTRY * i + 4))).collect(),
        next_handle: word(44),
        process_object: word(48),
        slots: all(OBJECTS, |i| get_slot(&b[SLOTS_AT + SLOT * i..][..SLOT]))?,
        records: (0..RECORDS).map(|i| RECORDS_AT + RECORD * i).map(|at| Record { thread: word(at), address: word(at + 4), next: word(at + 8) }).collect(),
        kept: (0..THREADS).map(|i| word(KEPT_AT + 4 * i)).collect(),
    })
}

/// a table's rows. To collect a Result grows the vector bit by bit.
fn all<T>(rows: usize, get: impl Fn(usize) -> Result<T, String>) -> Result<Vec<T>, String> {
    let mut table = Vec::with_capacity(rows);
    for i in 0..rows { table.push(get(i)?); }
    Ok(table)
}

fn flag(word: u32, at: usize) -> Result<bool, String> { if word <= 1 { Ok(word == 1) } else { Err(format!("flag at {at}")) } }

fn get_thread(b: &[u8]) -> Result<Thread, String> {
    let word = |at: usize| get32(b, at);
    let flag = |at: usize| flag(word(at), at);
    let known = |at: usize, most: u32| if word(at) <= most { Ok(word(at)) } else { Err(format!("number at {at} of a thread")) };
    Ok(Thread {
        status: known(0, 6)?, priority: word(4), entry: word(8), stack_top: word(12), tls: word(16), processor_id: word(20),
        wait_objects: (0..known(24, LIST as u32)? as usize).map(|i| word(WAIT_OBJECTS + 4 * i)).collect(),
        wait_all: flag(28)?, waited: flag(32)?,
        wakeup_at: flag(36)?.then_some(get64(b, 64)),
        wait_address: flag(40)?.then_some(word(44)),
        wait_result: match known(48, 2)? { 0 => None, 1 => Some(WaitResult::Signaled(word(52))), _ => Some(WaitResult::TimedOut) },
        wait_syscall: known(56, 4)?, guest_id: word(60), running_since: get64(b, 72),
    })
}

fn get_slot(b: &[u8]) -> Result<Slot, String> {
    let word = |at: usize| get32(b, at);
    let flag = |at: usize| flag(word(at), at);
    let reset = || if word(12) <= 2 { Ok(word(12)) } else { Err("reset type".to_string()) };
    let object = match word(0) {
        0 => Object::Free { next: word(12) },
        1 => Object::Thread(word(12)),
        2 => Object::Event { reset: reset()?, signaled: flag(16)? },
        3 => Object::Mutex { owner: flag(12)?.then_some(word(16)), lock_count: word(20) },
        4 => Object::Semaphore { count: word(12) as i32, max_count: word(16) as i32 },
        5 => Object::Timer { reset: reset()?, signaled: flag(16)?, fire_at: flag(20)?.then_some(get64(b, 24)), interval: get64(b, 32) },
        6 => Object::Arbiter { first: word(12) },
        7 => Object::Process,
        8 => Object::ResourceLimit,
        kind => return Err(format!("kind {kind}")),
    };
    Ok(Slot { object, refcount: word(4), pulsed: flag(8)? })
}
