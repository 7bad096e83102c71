//! what a state block says, as docs/STATE.md has it, and the same from the oracle's state.
use oracle::checked;
use oracle::{dedup, Oracle, HANDLES, LIST, OBJECTS, RECORDS, THREADS};
use serde::{part_mut, Parts};
use std::collections::{BTreeMap, BTreeSet};
use zakuro_core::kernel::object::{HandleTable, KObject, ObjectId, ObjectStore};
use zakuro_core::kernel::sync::{AddressArbiter, Event, Mutex, ResetType, Semaphore, Timer};
use zakuro_core::kernel::thread::{self, ThreadContext, ThreadStatus, WaitSyscall};
use zakuro_core::kernel::Kernel;
use zakuro_core::memory::MemoryRegion;
use zakuro_cpu::Psr;

pub const STATUSES: [&str; 7] = ["Dead", "Running", "Ready", "Sleeping", "WaitSync", "WaitArbiter", "Dormant"];
pub const SYSCALLS: [&str; 5] = ["-", "wait1", "waitn", "arbitrate", "sleep"];

#[derive(Debug, Clone, Copy, PartialEq)]
pub enum WaitResult { Signaled(u32), TimedOut }

#[derive(Debug, Clone, PartialEq)]
pub struct Thread {
    /// place in STATUSES.
    pub status: u32,
    pub priority: u32,
    pub entry: u32,
    pub stack_top: u32,
    pub tls: u32,
    pub processor_id: u32,
    pub wait_objects: Vec<u32>,
    pub wait_all: bool,
    pub waited: bool,
    pub wakeup_at: Option<u64>,
    pub wait_address: Option<u32>,
    pub wait_result: Option<WaitResult>,
    /// place in SYSCALLS.
    pub wait_syscall: u32,
    pub guest_id: u32,
    pub running_since: u64,
}

#[derive(Debug, Clone, Copy, PartialEq)]
pub enum Object {
    Free { next: u32 },
    Thread(u32),
    Event { reset: u32, signaled: bool },
    Mutex { owner: Option<u32>, lock_count: u32 },
    Semaphore { count: i32, max_count: i32 },
    Timer { reset: u32, signaled: bool, fire_at: Option<u64>, interval: u64 },
    Arbiter { first: u32 },
    Process,
    ResourceLimit,
}

#[derive(Debug, Clone, Copy, PartialEq)]
pub struct Slot { pub object: Object, pub refcount: u32, pub pulsed: bool }

#[derive(Debug, Clone, Copy, PartialEq, Default)]
pub struct Record { pub thread: u32, pub address: u32, pub next: u32 }

/// object and record numbers count from 1, and 0 is none.
#[derive(Debug, Clone, PartialEq)]
pub struct State {
    pub status_word: u32,
    pub current: Option<u32>,
    pub next_tls_slot: u32,
    pub next_guest_id: u32,
    pub all_blocked: bool,
    pub relief: bool,
    pub first_free: u32,
    pub first_free_record: u32,
    pub next_handle: u32,
    pub process_object: u32,
    pub threads: Vec<Thread>,
    pub slots: Vec<Slot>,
    pub handles: Vec<(u32, u32)>,
    pub records: Vec<Record>,
    pub kept: Vec<u32>,
}

impl State {
    pub fn fresh(status_word: u32) -> State {
        State {
            status_word, current: None, next_tls_slot: 0, next_guest_id: 0, all_blocked: false, relief: false,
            first_free: 1, first_free_record: 1, next_handle: 0x10000, process_object: 0, threads: vec![],
            slots: (1..=OBJECTS as u32).map(|o| Slot { object: Object::Free { next: (o + 1) % (OBJECTS as u32 + 1) }, refcount: 0, pulsed: false }).collect(),
            handles: vec![],
            records: (1..=RECORDS as u32).map(|r| Record { next: (r + 1) % (RECORDS as u32 + 1), ..Record::default() }).collect(),
            kept: vec![0; THREADS],
        }
    }

    /// links the free slots in this order. A live one among them ends the links, one that comes twice leads back.
    pub fn link_free(&mut self, chain: &[u32]) {
        self.first_free = chain.first().copied().unwrap_or(0);
        for (i, o) in chain.iter().enumerate().rev() {
            if let Some(Slot { object: Object::Free { next }, .. }) = self.slots.get_mut((*o as usize).wrapping_sub(1)) {
                *next = chain.get(i + 1).copied().unwrap_or(0);
            }
        }
    }

    /// gives each arbiter its records and chains the rest as free, taking the record numbers in this order.
    pub fn link_records(&mut self, arbiters: &[(u32, Vec<(u32, u32)>)], order: &[u32]) {
        let mut at = 0;
        for (object, records) in arbiters {
            let numbers = &order[at..at + records.len()];
            at += records.len();
            for (i, (thread, address)) in records.iter().enumerate() {
                self.records[numbers[i] as usize - 1] = Record { thread: *thread, address: *address, next: numbers.get(i + 1).copied().unwrap_or(0) };
            }
            self.slots[*object as usize - 1].object = Object::Arbiter { first: numbers.first().copied().unwrap_or(0) };
        }
        let free = &order[at..];
        self.first_free_record = free.first().copied().unwrap_or(0);
        for (i, r) in free.iter().enumerate() {
            self.records[*r as usize - 1] = Record { next: free.get(i + 1).copied().unwrap_or(0), ..Record::default() };
        }
    }

    /// the oracle's state, or why no block can hold it. Nothing is asked but room.
    pub fn of(o: &Oracle) -> Result<State, String> {
        let k = &o.sys.kernel;
        let p = k.oracle_private();
        let h = checked::holdings(&o.sys);
        let slots = o.slot_count();
        let room = h.threads <= THREADS && slots <= OBJECTS && h.handles <= HANDLES && h.records <= RECORDS && h.list <= LIST
            && p.thread_objects.iter().all(|(t, _)| (*t as usize) < THREADS) && k.pulsed.iter().all(|o| (o.0 as usize) < OBJECTS);
        if !room { return Err(format!("no room for {h:?}")); }
        let mut s = State::fresh(o.default_status);
        s.current = k.current_thread;
        (s.next_tls_slot, s.next_guest_id, s.all_blocked, s.relief) = (p.next_tls_slot, k.next_guest_id, k.all_blocked, p.relief);
        s.next_handle = h.next_handle;
        s.process_object = p.process_object.map_or(0, |o| o.0 + 1);
        s.threads = k.threads.iter().map(thread_of).collect();
        let mut arbiters = Vec::new();
        for (id, object) in k.objects.iter() {
            let object = match object {
                KObject::Thread(t) => Object::Thread(*t),
                KObject::Event(e) => Object::Event { reset: checked::reset(e.reset_type), signaled: e.signaled },
                KObject::Mutex(m) => Object::Mutex { owner: m.owner, lock_count: m.lock_count },
                KObject::Semaphore(x) => Object::Semaphore { count: x.count, max_count: x.max_count },
                KObject::Timer(t) => Object::Timer { reset: checked::reset(t.reset_type), signaled: t.signaled, fire_at: t.fire_at, interval: t.interval },
                KObject::AddressArbiter(a) => { arbiters.push((id.0 + 1, dedup(&a.waiters))); Object::Arbiter { first: 0 } }
                KObject::Process => Object::Process,
                KObject::ResourceLimit => Object::ResourceLimit,
                other => return Err(format!("kind {}", other.type_name())),
            };
            s.slots[id.0 as usize] = Slot { object, refcount: k.oracle_refcount(id), pulsed: false };
        }
        for slot in &mut s.slots { if let Object::Free { next } = &mut slot.object { *next = 0; } }
        for id in &k.pulsed { s.slots[id.0 as usize].pulsed = true; }
        let never_used = slots as u32 + 1..=OBJECTS as u32;
        s.link_free(&o.free_list().into_iter().chain(never_used).collect::<Vec<_>>());
        s.link_records(&arbiters, &(1..=RECORDS as u32).collect::<Vec<_>>());
        s.handles = k.handles.iter().map(|(h, o)| (h, o.0 + 1)).collect();
        s.handles.sort();
        for (t, o) in p.thread_objects { s.kept[t as usize] = o.0 + 1; }
        Ok(s)
    }

    /// whether both say the same. Record numbers may differ: an arbiter's records are compared as a list.
    pub fn same(&self, other: &State) -> bool {
        // every field is named, so that none is forgotten
        let State {
            status_word, current, next_tls_slot, next_guest_id, all_blocked, relief, first_free, first_free_record: _, next_handle, process_object,
            threads, slots, handles, records: _, kept,
        } = self;
        let objects = |(a, b): (&Slot, &Slot)| match (a.object, b.object) {
            (Object::Arbiter { first: x }, Object::Arbiter { first: y }) => (a.refcount, a.pulsed) == (b.refcount, b.pulsed) && self.records_of(x).eq(other.records_of(y)),
            _ => a == b,
        };
        *status_word == other.status_word && *current == other.current && *next_tls_slot == other.next_tls_slot && *next_guest_id == other.next_guest_id
            && *all_blocked == other.all_blocked && *relief == other.relief && *first_free == other.first_free && *next_handle == other.next_handle
            && *process_object == other.process_object && *threads == other.threads && *handles == other.handles && *kept == other.kept
            && slots.len() == other.slots.len() && slots.iter().zip(&other.slots).all(objects)
    }

    /// thread and address of an arbiter's records. A chain that does not end is cut after 64.
    fn records_of(&self, first: u32) -> impl Iterator<Item = (u32, u32)> + '_ {
        let mut at = first;
        (0..RECORDS).map_while(move |_| {
            let r = self.records.get((at as usize).wrapping_sub(1))?;
            at = r.next;
            Some((r.thread, r.address))
        })
    }

    /// the TLS slots that live threads leave below the next, rising.
    pub fn free_tls(&self) -> impl Iterator<Item = u32> + '_ {
        (0..self.next_tls_slot.min(THREADS as u32)).filter(|s| !self.threads.iter().any(|t| t.status != 0 && t.tls == *s))
    }

    /// gives the oracle this state, with these contexts. What `oracle::state::load` makes of the lines of a block that is
    /// `formed`, where every slot exists.
    pub fn load(&self, o: &mut Oracle, bank: &[[u32; 52]]) {
        o.default_status = self.status_word;
        let mut k = Kernel::new(0, MemoryRegion::Application, 0);
        k.objects = self.store();
        k.handles = self.table();
        k.threads = self.threads.iter().zip(bank).enumerate().map(|(i, (t, words))| thread_to(i as u32, t, words)).collect();
        k.current_thread = self.current;
        (k.next_guest_id, k.all_blocked) = (self.next_guest_id, self.all_blocked);
        k.timers = ids(self.slots.iter().map(|x| matches!(x.object, Object::Timer { .. })));
        k.pulsed = ids(self.slots.iter().map(|x| x.pulsed));
        *part_mut(&mut k, "next_tls_slot") = self.next_tls_slot;
        *part_mut::<BTreeSet<u32>>(&mut k, "free_tls") = self.free_tls().collect();
        *part_mut(&mut k, "relief") = self.relief;
        let kept = self.kept.iter().take(self.threads.len()).enumerate().filter(|(_, object)| **object != 0);
        *part_mut::<BTreeMap<u32, ObjectId>>(&mut k, "thread_objects") = kept.map(|(t, object)| (t as u32, checked::slot(*object))).collect();
        *part_mut(&mut k, "process_object") = (self.process_object != 0).then(|| checked::slot(self.process_object));
        o.sys.kernel = k;
    }

    fn store(&self) -> ObjectStore {
        let mut store = ObjectStore::default();
        for slot in &self.slots { store.insert(self.object_to(slot.object)); }
        let slots = store.part_mut("slots").unwrap();
        for (i, slot) in self.slots.iter().enumerate() {
            let place = slots.item_mut(i).unwrap();
            if let Object::Free { .. } = slot.object { place.clear(); } else { *part_mut(place, "refcount") = slot.refcount; }
        }
        // the Rust pops from the end
        *part_mut::<Vec<u32>>(&mut store, "free") = self.free_chain().into_iter().rev().map(|n| n - 1).collect();
        store
    }

    fn table(&self) -> HandleTable {
        let mut table = HandleTable::default();
        *part_mut::<BTreeMap<u32, ObjectId>>(&mut table, "entries") = self.handles.iter().map(|(h, o)| (*h, checked::slot(*o))).collect();
        *part_mut::<BTreeMap<u32, String>>(&mut table, "labels") = self.handles.iter().map(|(h, _)| (*h, String::new())).collect();
        *part_mut(&mut table, "next") = self.next_handle;
        table
    }

    /// a dead slot gets some object, which `store` takes out again.
    fn object_to(&self, object: Object) -> KObject {
        let name = String::new();
        let reset_type = |reset: u32| match reset { 1 => ResetType::Sticky, 2 => ResetType::Pulse, _ => ResetType::OneShot };
        match object {
            Object::Thread(t) => KObject::Thread(t),
            Object::Event { reset, signaled } => KObject::Event(Event { name, reset_type: reset_type(reset), signaled }),
            Object::Mutex { owner, lock_count } => KObject::Mutex(Mutex { name, owner, lock_count }),
            Object::Semaphore { count, max_count } => KObject::Semaphore(Semaphore { name, count, max_count }),
            Object::Timer { reset, signaled, fire_at, interval } => KObject::Timer(Timer { name, reset_type: reset_type(reset), signaled, fire_at, interval }),
            Object::Arbiter { first } => KObject::AddressArbiter(AddressArbiter { name, waiters: self.records_of(first).collect() }),
            Object::Free { .. } | Object::Process => KObject::Process,
            Object::ResourceLimit => KObject::ResourceLimit,
        }
    }

    /// the free slots in chain order. A chain that does not end is cut after 128.
    pub fn free_chain(&self) -> Vec<u32> {
        let mut chain = Vec::new();
        let mut at = self.first_free;
        while let Some(Slot { object: Object::Free { next }, .. }) = self.slots.get((at as usize).wrapping_sub(1)) {
            if chain.len() == OBJECTS { break; }
            chain.push(at);
            at = *next;
        }
        chain
    }

    /// the record numbers of a chain. One that does not end is cut after 64.
    pub fn record_chain(&self, first: u32) -> Vec<u32> {
        let mut chain = Vec::new();
        let mut at = first;
        while let Some(r) = self.records.get((at as usize).wrapping_sub(1)) {
            if chain.len() == RECORDS { break; }
            chain.push(at);
            at = r.next;
        }
        chain
    }

    /// the lines of `Oracle::dump` up to `pulsed`.
    pub fn lines(&self) -> Vec<(String, String)> {
        let opt = |o: Option<String>| o.unwrap_or_else(|| "-".into());
        let list = |v: &[u32]| v.iter().map(|x| x.to_string()).collect::<Vec<_>>().join(",");
        let number = |n: u32| if n == 0 { "-".into() } else { n.to_string() };
        let mut d: Vec<(String, String)> = Vec::new();
        let mut put = |a: String, b: String| d.push((a, b));
        put("status_word".into(), format!("{:08x}", self.status_word));
        put("current".into(), opt(self.current.map(|t| t.to_string())));
        put("all_blocked".into(), (self.all_blocked as u32).to_string());
        put("relief".into(), (self.relief as u32).to_string());
        put("next_guest".into(), self.next_guest_id.to_string());
        put("next_handle".into(), format!("{:x}", self.next_handle));
        put("next_tls".into(), self.next_tls_slot.to_string());
        put("free_tls".into(), list(&self.free_tls().collect::<Vec<_>>()));
        put("process_object".into(), number(self.process_object));
        for (i, t) in self.threads.iter().enumerate() {
            put(format!("T{i}"), format!(
                "{} prio={} tls={} all={} list=[{}] wake={} since={} waited={} addr={} res={} call={} guest={} kept={} entry={:x} stack={:x} proc={}",
                STATUSES[t.status as usize], t.priority, t.tls, t.wait_all as u32, list(&t.wait_objects),
                opt(t.wakeup_at.map(|x| x.to_string())), t.running_since, t.waited as u32, opt(t.wait_address.map(|a| format!("{a:x}"))),
                opt(t.wait_result.map(|r| match r { WaitResult::Signaled(i) => format!("signaled:{i}"), WaitResult::TimedOut => "timedout".into() })),
                SYSCALLS[t.wait_syscall as usize], t.guest_id, number(self.kept[i]), t.entry, t.stack_top, t.processor_id as i32));
        }
        for (i, slot) in self.slots.iter().enumerate() {
            let body = match slot.object {
                Object::Free { .. } => continue,
                Object::Thread(t) => format!("Thread {t}"),
                Object::Event { reset, signaled } => format!("Event reset={reset} sig={}", signaled as u32),
                Object::Mutex { owner, lock_count } => format!("Mutex owner={} locks={lock_count}", opt(owner.map(|x| x.to_string()))),
                Object::Semaphore { count, max_count } => format!("Semaphore count={count} max={max_count}"),
                Object::Timer { reset, signaled, fire_at, interval } => format!("Timer reset={reset} sig={} due={} interval={interval}", signaled as u32, opt(fire_at.map(|x| x.to_string()))),
                Object::Arbiter { first } => {
                    let records = self.record_chain(first).into_iter().map(|r| { let r = self.records[r as usize - 1]; format!("{}@{:x}", r.thread, r.address) });
                    format!("Arbiter rec=[{}]", records.collect::<Vec<_>>().join(","))
                }
                Object::Process => "Process".into(),
                Object::ResourceLimit => "ResourceLimit".into(),
            };
            put(format!("O{}", i + 1), format!("{body} refs={}", slot.refcount));
        }
        put("chain".into(), list(&self.free_chain()));
        for (h, o) in &self.handles { put(format!("H{h:x}"), o.to_string()); }
        put("pulsed".into(), list(&(1..=OBJECTS as u32).filter(|o| self.slots[*o as usize - 1].pulsed).collect::<Vec<_>>()));
        d
    }
}

fn thread_of(t: &zakuro_core::kernel::thread::Thread) -> Thread {
    let status = match t.status {
        ThreadStatus::Dead => 0, ThreadStatus::Running => 1, ThreadStatus::Ready => 2, ThreadStatus::Sleeping => 3,
        ThreadStatus::WaitSync => 4, ThreadStatus::WaitArbiter => 5, ThreadStatus::Dormant => 6,
    };
    Thread {
        status, priority: t.priority, entry: t.entry, stack_top: t.stack_top, tls: t.tls, processor_id: t.processor_id as u32,
        wait_objects: t.wait_objects.iter().map(|o| o.0 + 1).collect(), wait_all: t.wait_all, waited: t.waited,
        wakeup_at: t.wakeup_at, wait_address: t.wait_address,
        wait_result: checked::result(t.wait_result).map(|(kind, index)| if kind == 1 { WaitResult::Signaled(index) } else { WaitResult::TimedOut }),
        wait_syscall: match t.wait_syscall {
            None => 0, Some(WaitSyscall::WaitSynchronization1) => 1, Some(WaitSyscall::WaitSynchronizationN) => 2,
            Some(WaitSyscall::ArbitrateAddress) => 3, Some(WaitSyscall::SleepThread) => 4,
        },
        guest_id: t.guest_id, running_since: t.running_since,
    }
}

/// the slots for which this holds.
fn ids(holds: impl Iterator<Item = bool>) -> Vec<ObjectId> { holds.enumerate().filter(|(_, x)| *x).map(|(i, _)| ObjectId(i as u32)).collect() }

fn thread_to(id: u32, t: &Thread, words: &[u32; 52]) -> thread::Thread {
    use ThreadStatus::*;
    let context = ThreadContext {
        regs: words[..16].try_into().unwrap(), cpsr: Psr::from_word(words[16]), vfp_regs: words[17..49].try_into().unwrap(),
        fpscr: words[49], fpexc: words[50], tls_pointer: words[51],
    };
    thread::Thread {
        id, name: String::new(), context, priority: t.priority, status: [Dead, Running, Ready, Sleeping, WaitSync, WaitArbiter, Dormant][t.status as usize],
        entry: t.entry, stack_top: t.stack_top, tls: t.tls, processor_id: t.processor_id as i32,
        wait_objects: t.wait_objects.iter().map(|o| checked::slot(*o)).collect(), wait_all: t.wait_all,
        wakeup_at: t.wakeup_at, running_since: t.running_since, waited: t.waited, wait_address: t.wait_address,
        wait_result: t.wait_result.map(|r| match r { WaitResult::Signaled(i) => thread::WaitResult::Signaled(i as usize), WaitResult::TimedOut => thread::WaitResult::TimedOut }),
        wait_syscall: [None, Some(WaitSyscall::WaitSynchronization1), Some(WaitSyscall::WaitSynchronizationN), Some(WaitSyscall::ArbitrateAddress), Some(WaitSyscall::SleepThread)][t.wait_syscall as usize],
        guest_id: t.guest_id,
    }
}
