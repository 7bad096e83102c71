//! the library's operations timed beside the original's own, on the same states.
use crate::busy::{add, busy, empty, DUE, EARLY, ROOM};
use crate::lent::{first_difference, same, Lent};
use crate::port::{Operation, OPERATIONS};
use crate::question::{formed, sound};
use crate::rich::{rich, Size, ADDRESSES};
use crate::state::{Object, State, WaitResult};
use crate::{blocks, codec};
use oracle::gen::Rng;
use oracle::{accepted, Answer, Judged, Op, Oracle, Out, HANDLES, LIST, OBJECTS, RECORDS, THREADS, WAIT_AT_ONCE};
use std::hint::black_box;
use std::time::Instant;
use zakuro_core::kernel::{svc, Kernel};
use zakuro_core::memory::MemoryRegion;
use zakuro_core::System;

/// calls of a round, each on its own copy of the state, or all on one if the operation only looks.
const CALLS: usize = 16;
const COPIES: usize = 64;

struct Case { name: String, state: &'static str, lent: Lent, op: Op }

/// a full state of the random ones with room, whose current thread runs. No timer is due before `DUE` and no thread is more urgent,
/// so that satisfied_now and quiet_release have to look at all.
fn full_with_room() -> State {
    let size = Size { threads: THREADS - 1, objects: OBJECTS - ROOM, handles: HANDLES - ROOM, records: RECORDS - ROOM };
    let fits = |s: &State| s.current.is_some_and(|t| s.threads[t as usize].status == 1) && blocks::gives_handles(s);
    let mut s = (1..).map(|seed| rich(&mut Rng::new(seed), &size)).find(fits).unwrap();
    for slot in &mut s.slots {
        slot.pulsed = false;
        if let Object::Timer { fire_at: Some(at), .. } = &mut slot.object { *at = DUE.max(*at); }
    }
    let running = &mut s.threads[s.current.unwrap() as usize];
    (running.priority, running.waited, running.running_since) = (0, false, 0);
    (running.wait_result, running.wait_syscall) = (None, 0);
    s
}

/// every word of the window is `word`.
fn lent(s: &State, word: u32) -> Lent {
    let mut lent = Lent::random(&mut Rng::new(0));
    lent.block = codec::encode(s);
    (lent.base, lent.window) = (ADDRESSES, [word; 64].into_iter().flat_map(u32::to_le_bytes).collect());
    lent
}

/// `plain` is the state itself; `room` has a current thread that runs, and room for what an operation makes.
fn cases(state: &'static str, plain: &State, room: &State) -> Vec<Case> {
    let mut cases = Vec::new();
    let mut on = |name: &str, s: &State, word: u32, op: Op| {
        let mut lent = lent(s, word);
        lent.lend(&op);
        cases.push(Case { name: name.into(), state, lent, op });
    };
    on("fresh", plain, 0, Op::Fresh { status: 0x10 });
    on("create", room, 0, Op::Create { entry: 0x10_0001, stack: 0x1000, arg: 7, prio: 24, proc: 0 });
    on("pass", plain, 0, Op::Pass { tick: DUE });
    match state {
        "empty" => {
            let mut ready = room.clone();
            (ready.threads[0].status, ready.current) = (2, None);
            on("pass, one thread ready", &ready, 0, Op::Pass { tick: DUE });
        }
        "busy" => on("pass, none due", plain, 0, Op::Pass { tick: EARLY }),
        _ => {}
    }
    on("next_event", plain, 0, Op::NextEvent);
    let ending = if plain.threads.is_empty() { room } else { plain };
    let last = ending.threads.iter().rposition(|t| t.status != 0).unwrap();
    on("end", ending, 0, Op::End { thread: last as u32 });
    // the object is the one that was made last, and so is its handle
    let with = |object: Object| { let mut s = room.clone(); let handle = add(&mut s, object); (s, handle) };
    let me = room.current.unwrap();
    let held = Object::Mutex { owner: Some(me), lock_count: 1 };
    let event = |signaled: bool| Object::Event { reset: 0, signaled };
    let timer = Object::Timer { reset: 0, signaled: true, fire_at: Some(DUE + 1), interval: 0 };
    let (s, handle) = with(Object::ResourceLimit);
    on("satisfied", &s, 0, Op::Satisfied { handles: vec![handle; WAIT_AT_ONCE], all: true, tick: EARLY });
    let (s, handle) = with(held);
    on("quiet", &s, 0, Op::Quiet { handle, tick: EARLY });
    let mut s = room.clone();
    (s.threads[me as usize].wait_result, s.threads[me as usize].wait_syscall) = (Some(WaitResult::Signaled(3)), 2);
    on("collect", &s, 0, Op::Collect);

    let mut call = |what: &str, num: u32, object: Option<Object>, regs: &dyn Fn(u32) -> [u32; 6]| {
        let (s, handle) = match object { Some(object) => with(object), None => (room.clone(), 0) };
        on(&format!("{num:02x} {what}"), &s, handle, Op::Call { num, regs: regs(handle), tick: DUE });
    };
    let millisecond = 1_000_000;
    call("CreateThread", 0x08, None, &|_| [24, 0x10_0001, 7, 0x1000, 0, 0]);
    call("ExitThread", 0x09, Some(held), &|_| [0; 6]);
    call("SleepThread", 0x0A, None, &|_| [millisecond, 0, 0, 0, 0, 0]);
    call("SetThreadPriority", 0x0C, Some(Object::Thread(me)), &|h| [h, 30, 0, 0, 0, 0]);
    call("CreateMutex", 0x13, None, &|_| [0, 1, 0, 0, 0, 0]);
    call("ReleaseMutex", 0x14, Some(held), &|h| [h, 0, 0, 0, 0, 0]);
    call("CreateSemaphore", 0x15, None, &|_| [0, 1, 2, 0, 0, 0]);
    call("ReleaseSemaphore", 0x16, Some(Object::Semaphore { count: 1, max_count: 8 }), &|h| [0, h, 2, 0, 0, 0]);
    call("CreateEvent", 0x17, None, &|_| [0, 1, 0, 0, 0, 0]);
    call("SignalEvent", 0x18, Some(event(false)), &|h| [h, 0, 0, 0, 0, 0]);
    call("ClearEvent", 0x19, Some(event(true)), &|h| [h, 0, 0, 0, 0, 0]);
    call("CreateTimer", 0x1A, None, &|_| [0, 1, 0, 0, 0, 0]);
    call("SetTimer", 0x1B, Some(timer), &|h| [h, millisecond, millisecond, 0, 0, 0]);
    call("CancelTimer", 0x1C, Some(timer), &|h| [h, 0, 0, 0, 0, 0]);
    call("ClearTimer", 0x1D, Some(timer), &|h| [h, 0, 0, 0, 0, 0]);
    call("CreateAddressArbiter", 0x21, None, &|_| [0; 6]);
    call("ArbitrateAddress, waits", 0x22, Some(Object::Arbiter { first: 0 }), &|h| [h, ADDRESSES, 4, i32::MAX as u32, millisecond, 0]);
    call("CloseHandle", 0x23, Some(event(true)), &|h| [h, 0, 0, 0, 0, 0]);
    call("WaitSynchronization1", 0x24, Some(event(false)), &|h| [h, 0, millisecond, 0, 0, 0]);
    call("WaitSynchronizationN", 0x25, Some(event(false)), &|_| [millisecond, ADDRESSES, LIST as u32, 1, 0, 0]);
    call("DuplicateHandle", 0x27, Some(event(true)), &|h| [0, h, 0, 0, 0, 0]);
    // the arbiter with the most records
    let arbiters = room.handles.iter().filter_map(|(h, o)| match room.slots[*o as usize - 1].object { Object::Arbiter { first } => Some((*h, room.record_chain(first))), _ => None });
    if let Some((h, records)) = arbiters.max_by_key(|(_, records)| records.len()).filter(|(_, records)| !records.is_empty()) {
        let address = room.records[records[0] as usize - 1].address;
        call("ArbitrateAddress, signals", 0x22, None, &|_| [h, address, 0, -1i32 as u32, 0, 0]);
    }
    cases
}

/// what an accepted operation gave.
fn said(Answer { code, out }: &Answer) -> String {
    let found = |found: bool| if found { "found" } else { "none" }.to_string();
    match out {
        Out::Nothing => code.to_string(),
        Out::Thread(t) => format!("thread {t}"),
        Out::Switched(switched) => if *switched { "switched" } else { "stays" }.into(),
        Out::Tick(tick) => found(tick.is_some()),
        Out::Satisfied(x) => found(x.is_some()),
        Out::Quiet(x) => found(x.is_some()),
        Out::Collected(result, _) => found(result.is_some()),
    }
}

/// does the operation once on both sides. Gives the original before it and the answer, if both accept it with the same answer and
/// leave the same.
fn agree(x: &Operation, case: &Case) -> Result<(Oracle, String), String> {
    let before = sound(&case.lent).map_err(|why| format!("unsound: {why}"))?;
    let mut here = case.lent.clone();
    let mut answer = vec![0xA5; x.answer_len];
    let code = (x.call)(&case.op, &mut here, &mut answer);
    let Judged { answer: original, after, odd } = before.judge(&case.op);
    if let Some(odd) = odd { return Err(odd); }
    if code != original.code { return Err(format!("original {}, library {code}", original.code)); }
    if !accepted(code) { return Err(format!("refused with {code}")); }
    if answer != (x.answer)(&original.out) { return Err(format!("original {:?}, library {answer:02x?}", original.out)); }
    if x.reads_only {
        if here != case.lent { return Err("lent memory changed".into()); }
    } else {
        let after = Oracle { sys: after.expect("an operation that does more than look"), default_status: before.status_after(&case.op), panics: vec![] };
        let s = codec::decode(&here.block)?;
        formed(&here.block, &s)?;
        if !same(&after, &here, &s) { return Err(first_difference(&after, &here).unwrap_or("the states differ".into())); }
    }
    Ok((before, said(&original)))
}

/// the original's own operation. A call's arguments and tick are in the processor already.
fn original(sys: &mut System, op: &Op, fresh: &mut Vec<Kernel>) {
    match op {
        // the old kernel is dropped later
        Op::Fresh { .. } => fresh.push(Kernel::new(0, MemoryRegion::Application, 0)),
        Op::Create { entry, stack, arg, prio, proc } => { black_box(sys.kernel.oracle_create_thread(*entry, *stack, *arg, *prio, *proc)); }
        Op::Call { num, .. } => svc::dispatch(sys, *num),
        Op::Collect => { black_box(sys.kernel.current_mut().map(|t| (t.wait_result.take(), t.wait_syscall.take()))); }
        Op::Pass { tick } => { black_box(sys.kernel.schedule(&mut sys.cpu, *tick)); }
        Op::NextEvent => { black_box(sys.kernel.next_event()); }
        Op::Satisfied { handles, all, tick } => { black_box(sys.kernel.oracle_satisfied_now(handles, *all, *tick)); }
        Op::Quiet { handle, tick } => { black_box(sys.kernel.oracle_quiet_release(*handle, *tick)); }
        Op::End { thread } => sys.kernel.end_thread(*thread),
        _ => unreachable!(),
    }
}

/// nanoseconds of all that `run` does.
fn nanos(run: impl FnOnce()) -> f64 {
    let start = Instant::now();
    run();
    start.elapsed().as_nanos() as f64
}

fn median(mut v: Vec<f64>) -> f64 { v.sort_by(f64::total_cmp); v[v.len() / 2] }

/// two blocks to copy between, placed alike in every run.
#[repr(align(64))]
struct Blocks([[u8; codec::BLOCK]; 2]);

impl Blocks {
    fn copies(&mut self, count: usize) { for _ in 0..count { let [from, to] = black_box(&mut self.0); to.copy_from_slice(from); } }
}

/// copies of the original, as large as they would have grown.
fn originals(o: &Oracle, op: &Op, count: usize) -> Vec<System> {
    let one = || {
        let mut sys = o.sys.dup();
        sys.kernel.threads.reserve(THREADS - sys.kernel.threads.len());
        sys.kernel.timers.reserve(OBJECTS - sys.kernel.timers.len());
        if let Op::Call { tick, .. } = op { sys.cpu.cycles = *tick; }
        sys
    };
    (0..count).map(|_| one()).collect()
}

/// nanoseconds of a plain copy, of the library's operation and of the original's, each per call and without the clock's own time.
struct Times { copy: f64, port: f64, original: f64 }

/// each round makes the copies first and times only what comes after. The library's calls take microseconds, so that the clock can
/// be read for each, and fewer are hit by what else the machine does; the original's are timed together.
fn times(x: &Operation, case: &Case, o: &Oracle, rounds: usize) -> Times {
    let states = if x.reads_only { 1 } else { CALLS };
    let (mut copy, mut port, mut theirs, mut clock) = (vec![], vec![], vec![], vec![]);
    let mut blocks = Box::new(Blocks([[0; codec::BLOCK]; 2]));
    blocks.0[0].copy_from_slice(&case.lent.block);
    let mut lents = vec![case.lent.clone(); states];
    let mut answer = vec![0; x.answer_len];
    for _ in 0..rounds {
        clock.push(nanos(|| {}));
        // some to bring both blocks into the cache
        blocks.copies(4);
        copy.push(nanos(|| blocks.copies(COPIES)));
        for lent in &mut lents { lent.copy_from(&case.lent); }
        for i in 0..CALLS {
            port.push(nanos(|| { black_box((x.call)(black_box(&case.op), &mut lents[i % states], &mut answer)); }));
        }
        let mut systems = originals(o, &case.op, states);
        let mut fresh = Vec::with_capacity(CALLS);
        theirs.push(nanos(|| for i in 0..CALLS { original(black_box(&mut systems[i % states]), black_box(&case.op), &mut fresh) }));
    }
    let clock = median(clock);
    let per = |v: Vec<f64>, calls: usize| (median(v) - clock).max(0.0) / calls as f64;
    Times { copy: per(copy, COPIES), port: per(port, 1), original: per(theirs, CALLS) }
}

/// a semaphore above the greatest count: the checked build of the original panics, which `judge` gives as 8.
fn overflow_is_checked() -> bool {
    let mut s = empty(true);
    let handle = add(&mut s, Object::Semaphore { count: i32::MAX, max_count: i32::MAX });
    let op = Op::Call { num: 0x16, regs: [0, handle, 1, 0, 0, 0], tick: 0 };
    sound(&lent(&s, 0)).is_ok_and(|o| o.judge(&op).answer.code == 8)
}

/// prints the table. Gives false if a row has no figures.
pub fn bench(rounds: usize) -> Result<bool, String> {
    let on_off = |x: bool| if x { "on" } else { "off" };
    println!(
        "original: opt-level {}, overflow checks {}, debug assertions {}",
        zakuro_core::OPT_LEVEL, on_off(overflow_is_checked()), on_off(zakuro_core::DEBUG_ASSERTIONS)
    );
    println!("{rounds} rounds of {CALLS} calls and {COPIES} plain copies; medians, ns a call\n");
    println!("{:<28} {:<6} {:<9} {:>8} {:>10} {:>8} {:>10} {:>8}", "operation", "state", "answer", "copy", "port", "copies", "original", "ratio");
    let states = [("empty", empty(false), empty(true)), ("full", blocks::full(), full_with_room()), ("busy", busy(false), busy(true))];
    let mut cases: Vec<Case> = states.iter().flat_map(|(state, plain, room)| cases(state, plain, room)).collect();
    // the states of an operation one below the other
    let operation = |c: &Case| c.name.split(',').next().unwrap().to_string();
    let order: Vec<String> = cases.iter().map(operation).collect();
    cases.sort_by_key(|c| order.iter().position(|name| *name == operation(c)));
    let mut all = true;
    for case in &cases {
        // the library may have no guest calls yet
        let Some(x) = OPERATIONS.iter().find(|x| (x.is)(&case.op)) else { continue };
        match agree(x, case) {
            Ok((o, said)) => {
                let Times { copy, port, original } = times(x, case, &o, rounds);
                println!("{:<28} {:<6} {:<9} {:>8.0} {:>10.0} {:>8.1} {:>10.0} {:>8.1}", case.name, case.state, said, copy, port, port / copy, original, port / original);
            }
            Err(why) => {
                all = false;
                println!("{:<28} {:<6} {why}", case.name, case.state);
            }
        }
    }
    Ok(all)
}
