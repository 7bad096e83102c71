//! the oracle over the unchanged Rust kernel, see README.md.
pub mod gen;
pub mod state;
pub mod text;
pub mod watch;

use std::collections::{BTreeMap, BTreeSet};
use std::panic::{catch_unwind, AssertUnwindSafe};

pub const CALLS: [u32; 21] = [
    0x08, 0x09, 0x0A, 0x0C, 0x13, 0x14, 0x15, 0x16, 0x17, 0x18, 0x19, 0x1A, 0x1B, 0x1C, 0x1D, 0x21, 0x22, 0x23, 0x24, 0x25, 0x27,
];
pub const THREADS: usize = 32;
pub const OBJECTS: usize = 128;
pub const HANDLES: usize = 256;
pub const RECORDS: usize = 64;
/// the longest list of 0x25, question 5: the Rust has none.
pub const LIST: usize = 12;
/// the most handles that satisfied_now looks at, as the constant of that name in the Rust.
pub const WAIT_AT_ONCE: usize = 8;
pub const LAST_NEXT: u32 = 0xFFFF_8000;
pub const STARVATION: u64 = 17_924_544;

#[derive(Debug, Clone, PartialEq)]
pub enum Op {
    Fresh { status: u32 },
    Create { entry: u32, stack: u32, arg: u32, prio: u32, proc: i32 },
    Call { num: u32, regs: [u32; 6], tick: u64 },
    Collect,
    Pass { tick: u64 },
    NextEvent,
    Satisfied { handles: Vec<u32>, all: bool, tick: u64 },
    Quiet { handle: u32, tick: u64 },
    End { thread: u32 },
    /// what the host lends, no kernel operation.
    Window { base: u32, bytes: Vec<u8> },
    Poke { addr: u32, word: u32 },
    Cpu { words: Box<[u32; 52]> },
    Bank { thread: u32, words: Box<[u32; 52]> },
    /// the block written by hand, still sound.
    Hand(Hand),
    /// a whole block (and bank) from dump lines.
    Load(Vec<(String, String)>),
}

#[derive(Debug, Clone, PartialEq)]
pub enum Hand {
    NextHandle(u32),
    NextGuest(u32),
    Lock { object: u32, count: u32 },
    Sem { object: u32, count: i32, max: i32 },
    Status { thread: u32, status: &'static str },
    Due { object: u32, at: Option<u64>, interval: u64 },
    Since { thread: u32, since: u64, waited: bool },
    /// an object of the always-signalled kind (the Rust's ResourceLimit) with a handle.
    Always,
    /// a pulse mark on a slot, live or dead.
    Mark { object: u32 },
}

#[derive(Debug, Clone, PartialEq)]
pub enum Out {
    Nothing,
    Thread(u32),
    Switched(bool),
    Tick(Option<u64>),
    Satisfied(Option<([u32; WAIT_AT_ONCE], u32)>),
    Quiet(Option<(u32, bool)>),
    /// result (1 signalled, 2 timed out; index) and call kind.
    Collected(Option<(u32, u32)>, Option<&'static str>),
}

#[derive(Debug, Clone, PartialEq)]
pub struct Answer {
    /// 0, a kernel answer 16..18, or a refusal 3..8.
    pub code: u32,
    pub out: Out,
}

/// whether an operation with this number was accepted: exactly 0 and the kernel answers. Every other number is a refusal.
pub fn accepted(code: u32) -> bool { matches!(code, 0 | 16 | 17 | 18) }

#[derive(Debug, Clone, PartialEq)]
pub struct Holdings {
    pub threads: usize,
    pub objects: usize,
    pub handles: usize,
    pub records: usize,
    pub list: usize,
    pub priority: u32,
    pub next_handle: u32,
}
impl Holdings {
    pub fn fit(&self) -> bool {
        self.threads <= THREADS && self.objects <= OBJECTS && self.handles <= HANDLES && self.records <= RECORDS && self.list <= LIST && self.priority <= 63
    }
}

/// a thread's second record in one arbiter for one address is not stored: the first place stays.
pub fn dedup(waiters: &[(u32, u32)]) -> Vec<(u32, u32)> {
    let mut kept = Vec::with_capacity(waiters.len());
    for w in waiters { if !kept.contains(w) { kept.push(*w); } }
    kept
}

pub mod checked {
    use super::{dedup, Holdings, Op};
    use zakuro_core as core;
    include!("exec.rs");
}
pub mod wrapped {
    use super::{dedup, Holdings, Op};
    use zakuro_core_wrap as core;
    include!("exec.rs");
}

use checked::{reset, result, slot, status, syscall};
use zakuro_core::kernel::object::KObject;
use zakuro_core::kernel::thread::ThreadStatus;
use zakuro_core::System;
use zakuro_cpu::Psr;

pub struct Oracle {
    pub sys: System,
    pub default_status: u32,
    /// panics that are no overflow, which document 01 has to rule out.
    pub panics: Vec<String>,
}

/// what running an operation on a copy gave. No copy is made for one that only looks.
enum Tried {
    Done(Option<System>, Answer),
    Overflow,
    Panic(String),
}

/// an operation judged on a state, which stays as it is.
pub struct Judged {
    pub answer: Answer,
    /// what the operation left, if it was accepted and does more than look.
    pub after: Option<System>,
    /// what document 01 has to rule out.
    pub odd: Option<String>,
}

pub fn quiet_panics() { std::panic::set_hook(Box::new(|i| { if std::env::var("ORACLE_PANICS").is_ok() { eprintln!("{i}"); } })); }

impl Default for Oracle { fn default() -> Self { Self::new() } }

impl Oracle {
    pub fn new() -> Oracle { Oracle { sys: System::new(), default_status: 0x10, panics: Vec::new() } }

    fn attempt(&self, op: &Op) -> Tried {
        let tried = catch_unwind(AssertUnwindSafe(|| {
            if let Some(out) = checked::look(&self.sys, op) { return (None, Answer { code: 0, out }); }
            let mut copy = self.sys.dup();
            let a = checked::run(&mut copy, op);
            (Some(copy), a)
        }));
        match tried {
            Ok((s, a)) => Tried::Done(s, a),
            Err(e) => {
                let text = e.downcast_ref::<String>().cloned().or_else(|| e.downcast_ref::<&str>().map(|s| s.to_string())).unwrap_or_default();
                if text.starts_with("attempt to ") && text.ends_with("with overflow") { Tried::Overflow } else { Tried::Panic(text) }
            }
        }
    }

    /// questions 3 to 6, which look at the state before.
    fn ask_before(&self, op: &Op) -> Option<u32> {
        let k = &self.sys.kernel;
        let current = k.current_thread.and_then(|t| k.threads.get(t as usize));
        let running = current.is_some_and(|t| t.status == ThreadStatus::Running);
        match op {
            Op::Call { num, regs, .. } => {
                if !CALLS.contains(num) { return Some(3); }
                if !running { return Some(4); }
                if *num == 0x25 && regs[2] as usize > LIST { return Some(5); }
                let words = match num {
                    0x25 if regs[2] > 0 => Some((regs[1], regs[2])),
                    0x22 if (1..=4).contains(&regs[2]) => Some((regs[1], 1)),
                    _ => None,
                };
                if let Some((addr, n)) = words {
                    let (base, len) = (self.sys.memory.base as u64, self.sys.memory.bytes.len() as u64);
                    let inside = addr as u64 >= base && addr as u64 + 4 * n as u64 <= base + len;
                    if addr % 4 != 0 || !inside { return Some(6); }
                }
                None
            }
            Op::Collect => (!running).then_some(4),
            Op::End { thread } => (*thread as usize >= k.threads.len() || k.threads[*thread as usize].status == ThreadStatus::Dead).then_some(4),
            _ => None,
        }
    }

    /// the refusal document 01 asks for, 3 to 8, on the Rust's state, or what the Rust gives.
    pub fn judge(&self, op: &Op) -> Judged {
        let refused = |code: u32| Judged { answer: Answer { code, out: Out::Nothing }, after: None, odd: None };
        zakuro_cpu::psr::set_default_word(self.status_after(op));
        if let Some(n) = self.ask_before(op) { return refused(n); }
        match self.attempt(op) {
            Tried::Done(after, answer) => {
                let sys = after.as_ref().unwrap_or(&self.sys);
                if !matches!(op, Op::Fresh { .. }) {
                    let h = checked::holdings(sys);
                    if !h.fit() { return refused(7); }
                    if h.next_handle > LAST_NEXT { return refused(8); }
                }
                let odd = (sys.memory.outside != 0).then(|| format!("access outside the window: {op:?}"));
                Judged { answer, after, odd }
            }
            // question 7 comes before 8: the wrapping build shows what the state would hold
            Tried::Overflow => refused(if self.fits_wrapped(op) { 8 } else { 7 }),
            Tried::Panic(text) => Judged { odd: Some(format!("{text}: {op:?}")), ..refused(999) },
        }
    }

    /// the default status word once the operation is accepted.
    pub fn status_after(&self, op: &Op) -> u32 { if let Op::Fresh { status } = op { *status } else { self.default_status } }

    /// the lent processor holds a call's arguments whether or not the call is refused.
    pub fn lend(&mut self, op: &Op) { if let Op::Call { regs, .. } = op { self.sys.cpu.regs[..6].copy_from_slice(regs); } }

    fn fits_wrapped(&self, op: &Op) -> bool {
        let mut w = zakuro_core_wrap::System::new();
        w.kernel = serde::Deserialize::from_value(&serde::Serialize::to_value(&self.sys.kernel));
        w.cpu = self.sys.cpu.clone();
        w.memory.base = self.sys.memory.base;
        w.memory.bytes = self.sys.memory.bytes.clone();
        wrapped::run(&mut w, op);
        wrapped::holdings(&w).fit()
    }

    /// one operation of document 01: the questions, then the Rust.
    pub fn apply(&mut self, op: &Op) -> Answer {
        match op {
            Op::Window { base, bytes } => { self.sys.memory.base = *base; self.sys.memory.bytes = bytes.clone(); }
            Op::Poke { addr, word } => {
                let o = (addr - self.sys.memory.base) as usize;
                self.sys.memory.bytes[o..o + 4].copy_from_slice(&word.to_le_bytes());
            }
            Op::Cpu { words } => self.set_cpu(words),
            Op::Bank { thread, .. } if *thread as usize >= self.sys.kernel.threads.len() => {}
            Op::Bank { thread, words } => {
                let c = &mut self.sys.kernel.threads[*thread as usize].context;
                c.regs.copy_from_slice(&words[..16]);
                c.cpsr = Psr::from_word(words[16]);
                c.vfp_regs.copy_from_slice(&words[17..49]);
                (c.fpscr, c.fpexc, c.tls_pointer) = (words[49], words[50], words[51]);
            }
            Op::Hand(h) => self.hand(h),
            Op::Load(lines) => state::load(self, lines),
            _ => {
                self.default_status = self.status_after(op);
                self.lend(op);
                let judged = self.judge(op);
                self.panics.extend(judged.odd);
                if let Some(sys) = judged.after { self.sys = sys; }
                return judged.answer;
            }
        }
        Answer { code: 0, out: Out::Nothing }
    }

    pub fn set_cpu(&mut self, w: &[u32; 52]) {
        let c = &mut self.sys.cpu;
        c.regs.copy_from_slice(&w[..16]);
        c.cpsr = Psr::from_word(w[16]);
        c.vfp.regs.copy_from_slice(&w[17..49]);
        (c.vfp.fpscr, c.vfp.fpexc, c.cp15.thread_id_ro) = (w[49], w[50], w[51]);
    }

    fn hand(&mut self, h: &Hand) {
        let k = &mut self.sys.kernel;
        if let Hand::Status { thread, .. } | Hand::Since { thread, .. } = h { if *thread as usize >= k.threads.len() { return; } }
        match h {
            Hand::NextHandle(n) => {
                let mut v = serde::Serialize::to_value(&k.handles);
                *v.field_mut("next") = serde::Value::U(*n as u64);
                k.handles = serde::Deserialize::from_value(&v);
            }
            Hand::NextGuest(n) => k.next_guest_id = *n,
            Hand::Lock { object, count } => if let Some(KObject::Mutex(m)) = k.objects.get_mut(slot(*object)) { m.lock_count = *count },
            Hand::Sem { object, count, max } => if let Some(KObject::Semaphore(s)) = k.objects.get_mut(slot(*object)) { s.count = *count; s.max_count = *max },
            Hand::Status { thread, status: s } => {
                k.threads[*thread as usize].status = match *s { "Ready" => ThreadStatus::Ready, "Dormant" => ThreadStatus::Dormant, "Running" => ThreadStatus::Running, _ => panic!("status") }
            }
            Hand::Due { object, at, interval } => if let Some(KObject::Timer(t)) = k.objects.get_mut(slot(*object)) { t.fire_at = *at; t.interval = *interval },
            Hand::Since { thread, since, waited } => { let t = &mut k.threads[*thread as usize]; t.running_since = *since; t.waited = *waited }
            Hand::Always => { let id = k.objects.insert(KObject::ResourceLimit); k.handles.create(&mut k.objects, id, ""); }
            Hand::Mark { object } => k.pulsed.push(slot(*object)),
        }
    }

    pub fn free_list(&self) -> Vec<u32> {
        // last freed is reused first: from the end
        serde::part::<Vec<u32>>(&self.sys.kernel.objects, "free").iter().rev().map(|slot| slot + 1).collect()
    }

    /// slots the Rust's store has, live and freed.
    pub fn slot_count(&self) -> usize { serde::Parts::part(&self.sys.kernel.objects, "slots").unwrap().count() }

    pub fn cpu_words(&self) -> [u32; 52] {
        let c = &self.sys.cpu;
        let mut w = [0; 52];
        w[..16].copy_from_slice(&c.regs);
        w[16] = c.cpsr.to_bits();
        w[17..49].copy_from_slice(&c.vfp.regs);
        (w[49], w[50], w[51]) = (c.vfp.fpscr, c.vfp.fpexc, c.cp15.thread_id_ro);
        w
    }
    pub fn bank_words(&self, thread: usize) -> [u32; 52] {
        let mut w = [0; 52];
        if let Some(t) = self.sys.kernel.threads.get(thread) {
            let c = &t.context;
            w[..16].copy_from_slice(&c.regs);
            w[16] = c.cpsr.to_bits();
            w[17..49].copy_from_slice(&c.vfp_regs);
            (w[49], w[50], w[51]) = (c.fpscr, c.fpexc, c.tls_pointer);
        }
        w
    }

    /// the canonical dump: one (key, value) a line. Object numbers are slot + 1, ticks decimal.
    pub fn dump(&self) -> Vec<(String, String)> {
        let k = &self.sys.kernel;
        let p = k.oracle_private();
        let opt = |o: Option<String>| o.unwrap_or_else(|| "-".into());
        let list = |v: &[u32]| v.iter().map(|x| x.to_string()).collect::<Vec<_>>().join(",");
        let mut d: Vec<(String, String)> = Vec::new();
        let mut put = |a: &str, b: String| d.push((a.into(), b));
        put("status_word", format!("{:08x}", self.default_status));
        put("current", opt(k.current_thread.map(|t| t.to_string())));
        put("all_blocked", (k.all_blocked as u32).to_string());
        put("relief", (p.relief as u32).to_string());
        put("next_guest", k.next_guest_id.to_string());
        put("next_handle", format!("{:x}", serde::Serialize::get_field(&k.handles, "next").unwrap().u()));
        put("next_tls", p.next_tls_slot.to_string());
        put("free_tls", list(&p.free_tls));
        put("process_object", opt(p.process_object.map(|o| (o.0 + 1).to_string())));
        let kept: BTreeMap<u32, u32> = p.thread_objects.iter().map(|(t, o)| (*t, o.0 + 1)).collect();
        for (i, t) in k.threads.iter().enumerate() {
            put(&format!("T{i}"), format!(
                "{} prio={} tls={} all={} list=[{}] wake={} since={} waited={} addr={} res={} call={} guest={} kept={} entry={:x} stack={:x} proc={}",
                status(t.status), t.priority, t.tls, t.wait_all as u32,
                list(&t.wait_objects.iter().map(|o| o.0 + 1).collect::<Vec<_>>()),
                opt(t.wakeup_at.map(|x| x.to_string())), t.running_since, t.waited as u32,
                opt(t.wait_address.map(|a| format!("{a:x}"))),
                opt(result(t.wait_result).map(|(a, b)| if a == 1 { format!("signaled:{b}") } else { "timedout".into() })),
                opt(syscall(t.wait_syscall).map(|s| s.into())), t.guest_id,
                opt(kept.get(&(i as u32)).map(|x| x.to_string())), t.entry, t.stack_top, t.processor_id));
        }
        for (id, o) in k.objects.iter() {
            let body = match o {
                KObject::Thread(t) => format!("Thread {t}"),
                KObject::Event(e) => format!("Event reset={} sig={}", reset(e.reset_type), e.signaled as u32),
                KObject::Mutex(m) => format!("Mutex owner={} locks={}", opt(m.owner.map(|x| x.to_string())), m.lock_count),
                KObject::Semaphore(s) => format!("Semaphore count={} max={}", s.count, s.max_count),
                KObject::Timer(t) => format!("Timer reset={} sig={} due={} interval={}", reset(t.reset_type), t.signaled as u32, opt(t.fire_at.map(|x| x.to_string())), t.interval),
                KObject::AddressArbiter(a) => format!("Arbiter rec=[{}]", dedup(&a.waiters).iter().map(|(t, a)| format!("{t}@{a:x}")).collect::<Vec<_>>().join(",")),
                KObject::Process => "Process".into(),
                other => other.type_name().into(),
            };
            put(&format!("O{}", id.0 + 1), format!("{body} refs={}", k.oracle_refcount(id)));
        }
        let free = self.free_list();
        // as the port keeps it: freed slots, last first, then the ones never used, ascending
        let used = self.slot_count() as u32;
        put("chain", list(&free.iter().copied().chain(used + 1..=OBJECTS as u32).collect::<Vec<_>>()));
        let mut hs: Vec<(u32, u32)> = k.handles.iter().map(|(h, o)| (h, o.0 + 1)).collect();
        hs.sort();
        for (h, o) in hs { put(&format!("H{h:x}"), o.to_string()); }
        let pulsed: BTreeSet<u32> = k.pulsed.iter().map(|o| o.0 + 1).collect();
        put("pulsed", list(&pulsed.into_iter().collect::<Vec<_>>()));
        put("next_event", opt(k.next_event().map(|x| x.to_string())));
        let words = |w: [u32; 52]| w.iter().map(|x| format!("{x:x}")).collect::<Vec<_>>().join(" ");
        for i in 0..k.threads.len() { put(&format!("C{i}"), words(self.bank_words(i))); }
        put("P", words(self.cpu_words()));
        for (i, c) in self.sys.memory.bytes.chunks(4).enumerate() {
            put(&format!("W{:x}", self.sys.memory.base as u64 + 4 * i as u64), format!("{:x}", u32::from_le_bytes(c.try_into().unwrap())));
        }
        d
    }

    /// question 2 of document 01 on the Rust's state: what is unsound about it. Entries marked
    /// (habit) are not asked by question 2, but hold in every state reached from a fresh start.
    pub fn unsound(&self) -> Vec<String> {
        let mut all = Vec::new();
        self.faults(true, &mut |fault| all.push(fault.to_string()));
        all
    }

    /// the first entry of `unsound` that is no habit.
    pub fn first_fault(&self) -> Option<String> {
        let mut first = None;
        self.faults(false, &mut |fault| { first.get_or_insert_with(|| fault.to_string()); });
        first
    }

    /// only a fault becomes text, for the driver asks this after every operation.
    fn faults(&self, habits: bool, bad: &mut dyn FnMut(std::fmt::Arguments)) {
        let k = &self.sys.kernel;
        let p = k.oracle_private();
        let h = checked::holdings(&self.sys);
        if !h.fit() { bad(format_args!("holdings {h:?}")); }
        if let Some(c) = k.current_thread {
            match k.threads.get(c as usize) { None => bad(format_args!("current names no thread")), Some(t) if t.status == ThreadStatus::Dead => bad(format_args!("current Dead")), _ => {} }
        }
        let slots = self.slot_count();
        let mut live: Vec<Option<&KObject>> = vec![None; slots];
        for (i, o) in k.objects.iter() { live[i.0 as usize] = Some(o); }
        let mut counts = vec![0u32; slots];
        let mut name = |what: std::fmt::Arguments, o: u32, bad: &mut dyn FnMut(std::fmt::Arguments)| match live.get(o as usize) {
            Some(Some(_)) => counts[o as usize] += 1,
            _ => bad(format_args!("{what} names dead slot {o}")),
        };
        for (i, t) in k.threads.iter().enumerate() {
            if t.status == ThreadStatus::Running && k.current_thread != Some(i as u32) { bad(format_args!("T{i} Running, not current")); }
            if t.status != ThreadStatus::WaitSync && !t.wait_objects.is_empty() { bad(format_args!("T{i} {} with a list", status(t.status))); }
            if habits {
                if t.status != ThreadStatus::WaitArbiter && t.wait_address.is_some() { bad(format_args!("(habit) T{i} {} with a wait address", status(t.status))); }
                if !t.status.is_blocked() && t.wakeup_at.is_some() { bad(format_args!("(habit) T{i} {} with a wake tick", status(t.status))); }
                if t.status != ThreadStatus::WaitSync && t.wait_all { bad(format_args!("(habit) T{i} {} with wait_all", status(t.status))); }
                if t.status == ThreadStatus::WaitSync && t.wait_result.is_some() { bad(format_args!("(habit) T{i} WaitSync with a result")); }
            }
            for o in &t.wait_objects { name(format_args!("T{i} list"), o.0, bad); }
            if t.id != i as u32 { bad(format_args!("T{i} id {}", t.id)); }
        }
        // with no handle open too: the next create gives this one
        if h.next_handle < 0x10000 { bad(format_args!("next handle {:x}", h.next_handle)); }
        for (x, o) in k.handles.iter() {
            name(format_args!("H{x:x}"), o.0, bad);
            if x < 0x10000 || x >= h.next_handle { bad(format_args!("H{x:x} out of range")); }
        }
        for (t, o) in &p.thread_objects {
            name(format_args!("kept T{t}"), o.0, bad);
            if !matches!(live.get(o.0 as usize), Some(Some(KObject::Thread(x))) if x == t) { bad(format_args!("kept object of T{t} is something else")); }
        }
        if let Some(o) = p.process_object {
            name(format_args!("process"), o.0, bad);
            if !matches!(live.get(o.0 as usize), Some(Some(KObject::Process))) { bad(format_args!("process object is something else")); }
        }
        for (o, c) in counts.iter().enumerate().filter(|(o, _)| live[*o].is_some()) {
            let r = k.oracle_refcount(slot(o as u32 + 1));
            if r != *c || r == 0 { bad(format_args!("slot {o} counted {r}, named {c}")); }
        }
        // freed slots exactly: none doubled, none live, none left out
        let free: &Vec<u32> = serde::part(&k.objects, "free");
        let mut seen = vec![false; slots];
        let odd = free.iter().any(|&n| seen.get_mut(n as usize).is_none_or(|s| std::mem::replace(s, true)) || live[n as usize].is_some());
        if odd || live.iter().flatten().count() + free.len() != slots { bad(format_args!("free list")); }
        if slots > OBJECTS || k.pulsed.iter().any(|o| o.0 as usize >= OBJECTS) { bad(format_args!("no such slot")); }
        for (i, o) in k.objects.iter().map(|(i, o)| (i.0, o)) {
            match o {
                KObject::Timer(_) if !k.timers.iter().any(|t| t.0 == i) => bad(format_args!("live timer {i} not in timers")),
                KObject::Mutex(m) => {
                    if let Some(t) = m.owner {
                        match k.threads.get(t as usize) { None => bad(format_args!("owner missing")), Some(t) if t.status == ThreadStatus::Dead => bad(format_args!("mutex {i} owned by the dead")), _ => {} }
                    }
                    if habits && m.owner.is_some() != (m.lock_count > 0) { bad(format_args!("(habit) mutex {i} owner {:?} locks {}", m.owner, m.lock_count)); }
                }
                KObject::AddressArbiter(a) => if a.waiters.iter().any(|(t, _)| *t as usize >= k.threads.len()) { bad(format_args!("record names no thread")) },
                KObject::Thread(t) => {
                    if *t as usize >= k.threads.len() { bad(format_args!("object names no thread")); }
                    if habits && !p.thread_objects.iter().any(|(a, b)| a == t && b.0 == i) { bad(format_args!("(habit) thread object {i} not kept")); }
                }
                _ => {}
            }
        }
        let mut used: Vec<u32> = Vec::with_capacity(k.threads.len());
        for t in k.threads.iter().filter(|t| t.status != ThreadStatus::Dead) {
            if used.contains(&t.tls) { bad(format_args!("TLS twice")); } else { used.push(t.tls); }
        }
        let rest = (0..p.next_tls_slot.min(THREADS as u32)).filter(|s| !used.contains(s));
        if !rest.eq(p.free_tls.iter().copied()) || p.next_tls_slot > 32 || used.iter().any(|&s| s >= p.next_tls_slot) { bad(format_args!("TLS free {:?}", p.free_tls)); }
    }
}
