//! states for the benchmarks, made by hand.
use crate::rich::{count_names, ADDRESSES};
use crate::state::{Object, Slot, State, Thread};
use oracle::{HANDLES, LIST, OBJECTS, RECORDS, THREADS};

/// at `DUE` every timer of `busy` has come due, at `EARLY` none has.
pub const EARLY: u64 = 1_000;
pub const DUE: u64 = 1 << 30;
const TIMERS: u32 = 100;
/// free objects, handles and records of a state with room.
pub const ROOM: usize = 4;

fn thread(status: u32, priority: u32, tls: u32, wait_objects: Vec<u32>) -> Thread {
    Thread {
        status, priority, entry: 0x10_0000, stack_top: 0x1000, tls, processor_id: 0, wait_all: !wait_objects.is_empty(), wait_objects, waited: false,
        wakeup_at: None, wait_address: None, wait_result: None, wait_syscall: if status == 4 { 2 } else { 0 }, guest_id: tls, running_since: 0,
    }
}

/// nothing at all, or one thread that runs.
pub fn empty(running: bool) -> State {
    let mut s = State::fresh(0x10);
    if running {
        s.threads.push(thread(1, 24, 0, vec![]));
        (s.next_tls_slot, s.next_guest_id, s.current) = (1, 1, Some(0));
    }
    s
}

/// every thread waits for all timers of a list of `LIST`, 100 timers are periodic and keep their signal for the pass, so
/// that a pass at `DUE` fires each and ends each wait; the other objects are of all kinds, and every handle and record is
/// in use. With room the first thread runs and is the most urgent, and the last thread place and `ROOM` objects, handles
/// and records are free.
pub fn busy(room: bool) -> State {
    let mut s = State::fresh(0x10);
    let free = if room { ROOM } else { 0 };
    let threads = THREADS - room as usize;
    let used = (OBJECTS - free) as u32;
    for t in 0..threads as u32 {
        let list = (0..LIST as u32).map(|k| 1 + (LIST as u32 * t + k) % TIMERS).collect();
        s.threads.push(if room && t == 0 { thread(1, 10, 0, vec![]) } else { thread(4, 20 + t % 40, t, list) });
    }
    (s.next_tls_slot, s.next_guest_id, s.current) = (threads as u32, threads as u32, room.then_some(0));
    let last = threads as u32 - 1;
    let mut arbiters = Vec::new();
    for o in 1..=used {
        let object = match o {
            // sticky and pulse
            o if o <= TIMERS => Object::Timer { reset: 1 + o % 2, signaled: false, fire_at: Some(DUE - o as u64), interval: 1_000 },
            o => match o % 7 {
                0 => Object::Event { reset: 0, signaled: false },
                1 => Object::Mutex { owner: Some(last), lock_count: 1 },
                2 => Object::Semaphore { count: 0, max_count: 8 },
                3 => { arbiters.push((o, vec![])); Object::Arbiter { first: 0 } }
                4 => { s.kept[o as usize % threads] = o; Object::Thread(o % threads as u32) }
                5 if s.process_object == 0 => { s.process_object = o; Object::Process }
                _ => Object::ResourceLimit,
            },
        };
        s.slots[o as usize - 1].object = object;
    }
    s.link_free(&(used + 1..=OBJECTS as u32).collect::<Vec<_>>());
    s.handles = (0..(HANDLES - free) as u32).map(|i| (0x10000 + i, 1 + i % used)).collect();
    s.next_handle = 0x10000 + s.handles.len() as u32;
    for i in 0..RECORDS - free {
        let at = i % arbiters.len();
        arbiters[at].1.push(((i % threads) as u32, ADDRESSES + 4 * (i / threads) as u32));
    }
    s.link_records(&arbiters, &(1..=RECORDS as u32).collect::<Vec<_>>());
    count_names(&mut s);
    s
}

/// the handle of a new object in a free slot.
pub fn add(s: &mut State, object: Object) -> u32 {
    let (number, handle) = (s.first_free, s.next_handle);
    let slot = &mut s.slots[number as usize - 1];
    let Object::Free { next } = slot.object else { unreachable!() };
    *slot = Slot { object, refcount: 1, pulsed: slot.pulsed };
    s.first_free = next;
    s.handles.push((handle, number));
    s.next_handle += 1;
    handle
}
