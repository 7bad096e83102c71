//! seeded random sequences that look at the oracle's state to reach its corners.
use crate::{Hand, Op, Oracle, LIST, STARVATION, WAIT_AT_ONCE};
use std::collections::VecDeque;
use zakuro_core::kernel::object::KObject;
use zakuro_core::kernel::thread::ThreadStatus;

pub struct Rng(u64);
impl Rng {
    pub fn new(seed: u64) -> Rng { Rng(seed.wrapping_mul(0x9E37_79B9_7F4A_7C15) ^ 0xD1B5_4A32_D192_ED03) }
    pub fn next(&mut self) -> u64 {
        self.0 = self.0.wrapping_add(0x9E37_79B9_7F4A_7C15);
        let mut z = self.0;
        z = (z ^ (z >> 30)).wrapping_mul(0xBF58_476D_1CE4_E5B9);
        z = (z ^ (z >> 27)).wrapping_mul(0x94D0_49BB_1331_11EB);
        z ^ (z >> 31)
    }
    pub fn below(&mut self, n: u64) -> u64 { if n == 0 { 0 } else { self.next() % n } }
    pub fn pct(&mut self, p: u64) -> bool { self.below(100) < p }
    pub fn pick<T: Copy>(&mut self, v: &[T]) -> T { v[self.below(v.len() as u64) as usize] }
    fn word(&mut self) -> u32 { self.next() as u32 }
}

pub const PROFILES: [&str; 15] = [
    "mixed", "waits", "timers", "arbiter", "life", "objects", "handles", "records", "threads", "starve", "extreme", "hand", "pulse", "mutex", "block",
];

pub struct Gen {
    pub rng: Rng,
    pub profile: usize,
    tick: u64,
    base: u32,
    words: u32,
    queue: VecDeque<Op>,
    stale: Vec<u32>,
    left: usize,
    prios: Vec<u32>,
}

#[derive(Clone, Copy, PartialEq)]
enum K { Thread, Event, Mutex, Sem, Timer, Arb, Process }

impl Gen {
    pub fn new(seed: u64, profile: Option<usize>) -> Gen {
        let mut rng = Rng::new(seed);
        let profile = profile.unwrap_or_else(|| { let p = rng.below(19) as usize; if p >= PROFILES.len() { [0, 1, 2, 3][p - PROFILES.len()] } else { p } });
        let name = PROFILES[profile];
        let mut g = Gen { tick: 0, base: 0, words: 0, queue: VecDeque::new(), stale: vec![0x10000, 0x10001], left: 0, prios: vec![], profile, rng };
        g.left = match name {
            "objects" | "handles" | "records" => 420 + g.rng.below(200) as usize,
            "threads" => 250,
            _ => 60 + g.rng.below(180) as usize,
        };
        g.prios = match g.rng.below(4) { 0 => vec![20], 1 => vec![10, 20], 2 => vec![0, 5, 5, 30, 63], _ => (0..5).map(|_| g.rng.below(70) as u32).collect() };
        g.tick = match name {
            "extreme" => match g.rng.below(4) { 0 => 0, 1 => u64::MAX - g.rng.below(3000), 2 => u64::MAX - g.rng.below(60_000_000), _ => g.rng.next() },
            _ => match g.rng.below(4) { 0 => 0, 1 => g.rng.below(1000), _ => g.rng.below(1 << 40) },
        };
        // what the host lends
        g.words = match g.rng.below(20) { 0 => 0, 1 => 2, 2 => LIST as u32, _ => 64 };
        let len = g.words * 4;
        g.base = match g.rng.below(10) {
            0 => 0u32.wrapping_sub(len),
            1 => 0,
            2 if g.rng.pct(30) => 0x1000_0002,
            _ => 0x1000_0000 + 4 * g.rng.below(4096) as u32,
        };
        if len == 0 && g.base == 0 { g.base = 0x1000; }
        let bytes: Vec<u8> = (0..g.words).flat_map(|_| { let w = match g.rng.below(6) { 0 => 0x8000_0000u32, 1 => u32::MAX, _ => g.rng.below(4) as u32 }; w.to_le_bytes() }).collect();
        g.queue.push_back(Op::Window { base: g.base, bytes });
        let mut w = Box::new([0u32; 52]);
        for x in w.iter_mut() { *x = g.rng.word(); }
        g.queue.push_back(Op::Cpu { words: w });
        let status = if g.rng.pct(50) { 0x10 } else { g.rng.word() };
        g.queue.push_back(Op::Fresh { status });
        let n = match name { "threads" => 8, "records" => 4, "starve" | "arbiter" => 3 + g.rng.below(3), _ => 1 + g.rng.below(6) };
        for _ in 0..n { let c = g.create(); g.queue.push_back(c); }
        g.queue.push_back(Op::Pass { tick: g.tick });
        g
    }

    fn is(&self, p: &str) -> bool { PROFILES[self.profile] == p }
    fn prio(&mut self) -> u32 { if self.rng.pct(4) { self.rng.pick(&[0, 62, 63, 64, u32::MAX]) } else { let v = self.prios.clone(); self.rng.pick(&v) } }
    fn create(&mut self) -> Op {
        Op::Create { entry: self.rng.word(), stack: self.rng.word(), arg: self.rng.word(), prio: self.prio(), proc: self.rng.pick(&[-2, -1, 0, 1]) }
    }

    fn advance(&mut self, o: &Oracle) -> u64 {
        let k = &o.sys.kernel;
        let t = self.tick;
        let to_event = if self.is("starve") { 10 } else { 22 };
        let r = self.rng.below(100);
        let n = if r < 15 { t }
        else if r < 15 + to_event {
            // a due tick of any thread or timer, or just beside it
            let mut due: Vec<u64> = k.threads.iter().filter(|t| t.status.is_blocked()).filter_map(|t| t.wakeup_at).collect();
            for (_, ob) in k.objects.iter() { if let KObject::Timer(x) = ob { due.extend(x.fire_at); } }
            due.extend(k.next_event());
            due.retain(|&d| d >= t && (d < t.saturating_add(1 << 45) || self.profile == 10));
            if due.is_empty() { t.saturating_add(self.rng.below(100)) } else {
                let d = self.rng.pick(&due);
                match self.rng.below(6) { 0 => d.saturating_sub(1).max(t), 1 => d.saturating_add(1), _ => d }
            }
        }
        else if r < 80 { t.saturating_add(self.rng.below(2000)) }
        else if r < 88 { t.saturating_add(self.rng.below(3_000_000)) }
        else if r < 94 || (self.is("starve") && r < 97) {
            // around the starvation edge of the running thread
            let since = k.current().map_or(t, |c| c.running_since);
            let edge = since.saturating_add(STARVATION);
            self.rng.pick(&[edge, edge.saturating_add(1), edge.saturating_add(1), edge.saturating_add(2 * STARVATION)]).max(t)
        }
        else if r < 97 { t.saturating_add(4_481_136) }
        else if r < 98 && self.is("extreme") { u64::MAX - self.rng.below(3) }
        else if r < 99 { t.saturating_add(STARVATION * 3) }
        else { t.saturating_sub(self.rng.below(1000)) };
        if self.is("extreme") && self.rng.pct(1) { self.tick = 0; return 0; }
        self.tick = n.max(t);
        n
    }

    fn kind(ob: &KObject) -> Option<K> {
        Some(match ob {
            KObject::Thread(_) => K::Thread, KObject::Event(_) => K::Event, KObject::Mutex(_) => K::Mutex, KObject::Semaphore(_) => K::Sem,
            KObject::Timer(_) => K::Timer, KObject::AddressArbiter(_) => K::Arb, KObject::Process => K::Process, _ => return None,
        })
    }
    fn handles_of(&self, o: &Oracle, k: Option<K>) -> Vec<u32> {
        let mut v: Vec<u32> = o.sys.kernel.handles.iter()
            .filter(|(_, id)| k.is_none() || o.sys.kernel.objects.get(*id).and_then(Self::kind) == k).map(|(h, _)| h).collect();
        v.sort();
        v
    }
    fn handle(&mut self, o: &Oracle, k: Option<K>) -> u32 {
        let r = self.rng.below(100);
        if r < 3 { return 0xFFFF_8000 + self.rng.below(2) as u32; }
        if r < 5 { let s = self.stale.clone(); return self.rng.pick(&s); }
        if r < 6 { return self.rng.pick(&[0, 1, 0xFFFF_8002, 0xFFFF_7FFF, u32::MAX]); }
        // what somebody waits on, to give it to them
        if r < 50 && !matches!(k, Some(K::Arb)) {
            let ks = &o.sys.kernel;
            let mut v: Vec<u32> = ks.handles.iter().filter(|(_, id)| (k.is_none() || ks.objects.get(*id).and_then(Self::kind) == k)
                && ks.threads.iter().any(|t| t.wait_objects.contains(id))).map(|(h, _)| h).collect();
            v.sort();
            if !v.is_empty() { return self.rng.pick(&v); }
        }
        let v = self.handles_of(o, if r < 10 { None } else { k });
        if v.is_empty() { self.rng.pick(&[0x10000, 0xFFFF_8000, 0xFFFF_8001]) } else if self.rng.pct(40) { self.rng.pick(&v[v.len().saturating_sub(4)..]) } else { self.rng.pick(&v) }
    }

    fn nanos(&mut self) -> u64 {
        match self.rng.below(20) {
            0..=2 => 0,
            3 => self.rng.pick(&[1, 3, 4, 5]),
            4..=8 => self.rng.below(10_000),
            9..=12 => self.rng.below(4_000_000),
            13 => self.rng.below(400_000_000),
            14 => self.rng.pick(&[i64::MAX as u64, u64::MAX / 2 - 1, 1_000_000_000, 1 << 62]),
            15 => self.rng.pick(&[u64::MAX, i64::MIN as u64, u64::MAX - 5]),
            _ => self.rng.pick(&[u64::MAX, 1000, 100_000]),
        }
    }

    fn list_at(&mut self, n: u32) -> u32 {
        if self.words < n { return self.base & !3; }
        let first = self.base.wrapping_add(3) & !3;
        let room = self.words - n;
        first.wrapping_add(4 * self.rng.below(room as u64 + 1) as u32)
    }
    fn inside(&self, addr: u32) -> bool {
        addr >= self.base && addr as u64 + 4 <= self.base as u64 + 4 * self.words as u64
    }
    fn futex(&mut self) -> u32 {
        let n = if self.is("records") { 40 } else if self.is("arbiter") { 1 + self.prios.len() as u64 / 2 } else { 6 };
        let first = self.base.wrapping_add(3) & !3;
        first.wrapping_add(4 * self.rng.below(n) as u32)
    }

    /// how long a long list is: the eight of satisfied_now, and all lengths up to one more than the longest of 0x25.
    fn long(&mut self) -> usize { WAIT_AT_ONCE + self.rng.below((LIST + 2 - WAIT_AT_ONCE) as u64) as usize }

    fn call(&mut self, num: u32, regs: [u32; 6], tick: u64) -> Op { Op::Call { num, regs, tick } }

    fn waitn(&mut self, o: &Oracle, hs: &[u32], all: bool, ns: u64, out: &mut Vec<Op>) {
        let at = self.list_at(hs.len() as u32);
        for (i, h) in hs.iter().enumerate() {
            let a = at.wrapping_add(4 * i as u32);
            if self.inside(a) { out.push(Op::Poke { addr: a, word: *h }); }
        }
        let mut at = at;
        if self.rng.pct(2) { at = self.rng.pick(&[at.wrapping_add(1), at.wrapping_add(2), 0, u32::MAX - 3, self.base.wrapping_add(4 * self.words)]); }
        let t = self.advance(o);
        let all = if all { self.rng.pick(&[1, 1, 2, u32::MAX]) } else { 0 };
        out.push(Op::Call { num: 0x25, regs: [ns as u32, at, hs.len() as u32, all, (ns >> 32) as u32, self.rng.word()], tick: t });
    }

    fn guest(&mut self, o: &Oracle) -> Vec<Op> {
        let mut w: Vec<(u32, u64)> = vec![
            (0x08, 4), (0x09, 1), (0x0A, 8), (0x0C, 4), (0x13, 4), (0x14, 6), (0x15, 3), (0x16, 6), (0x17, 5), (0x18, 8), (0x19, 2), (0x1A, 3),
            (0x1B, 6), (0x1C, 2), (0x1D, 3), (0x21, 2), (0x22, 8), (0x23, 6), (0x24, 14), (0x25, 16), (0x27, 3),
        ];
        let more: &[(u32, u64)] = match PROFILES[self.profile] {
            "waits" => &[(0x24, 20), (0x25, 30), (0x18, 10), (0x16, 8)],
            "timers" => &[(0x1A, 6), (0x1B, 25), (0x1D, 8), (0x1C, 3), (0x24, 20), (0x25, 12)],
            "arbiter" => &[(0x22, 120), (0x0A, 4)],
            "life" => &[(0x08, 14), (0x09, 7), (0x23, 30), (0x27, 6), (0x24, 10), (0x13, 6)],
            "objects" => &[(0x13, 60), (0x15, 60), (0x17, 60), (0x1A, 60), (0x21, 60)],
            "handles" => &[(0x27, 500), (0x13, 30)],
            "records" => &[(0x22, 500), (0x21, 6)],
            "threads" => &[(0x08, 90)],
            "starve" => &[(0x0A, 4), (0x0C, 10)],
            "pulse" => &[(0x17, 10), (0x18, 30), (0x1A, 8), (0x1B, 16), (0x24, 30), (0x25, 20), (0x23, 12)],
            "mutex" => &[(0x13, 10), (0x14, 30), (0x24, 40), (0x25, 20), (0x09, 4)],
            _ => &[],
        };
        for (n, e) in more { w.iter_mut().find(|x| x.0 == *n).unwrap().1 += e; }
        let total: u64 = w.iter().map(|x| x.1).sum();
        let mut r = self.rng.below(total);
        let mut num = 0x0A;
        for (n, x) in &w { if r < *x { num = *n; break; } r -= x; }
        if self.rng.pct(1) { num = self.rng.pick(&[0, 1, 2, 3, 0x0B, 0x11, 0x1E, 0x20, 0x26, 0x28, 0x2A, 0x32, 0x37, 0x7F, u32::MAX]); }
        // make what is missing first, mostly
        let need = match num { 0x14 => Some((K::Mutex, 0x13)), 0x16 => Some((K::Sem, 0x15)), 0x18 | 0x19 => Some((K::Event, 0x17)), 0x1B..=0x1D => Some((K::Timer, 0x1A)), 0x22 => Some((K::Arb, 0x21)), _ => None };
        if let Some((kind, make)) = need { if self.handles_of(o, Some(kind)).is_empty() && self.rng.pct(85) { num = make; } }
        if matches!(num, 0x24 | 0x25) && o.sys.kernel.handles.len() < 5 && self.rng.pct(60) { num = self.rng.pick(&[0x13, 0x15, 0x17, 0x1A, 0x08, 0x21]); }
        let mut regs = [0u32; 6];
        for x in regs.iter_mut() { *x = self.rng.word(); }
        let mut out = Vec::new();
        match num {
            0x08 => { regs[0] = self.prio(); }
            0x0A if !o.sys.kernel.others_ready() && self.rng.pct(35) && o.sys.kernel.next_event().is_some_and(|at| at < self.tick.saturating_add(1 << 45)) => {
                // a yield with nobody ready, at or just before the next event
                let at = o.sys.kernel.next_event().unwrap();
                self.tick = self.tick.max(at.saturating_sub(self.rng.pick(&[0, 0, 0, 1])));
                return vec![Op::Call { num: 0x0A, regs: [0, 0, regs[2], regs[3], regs[4], regs[5]], tick: self.tick }];
            }
            0x0A => { let ns = if self.rng.pct(45) { 0 } else { self.nanos() }; regs[0] = ns as u32; regs[1] = (ns >> 32) as u32; }
            0x0C => { regs[0] = if self.rng.pct(30) { 0xFFFF_8000 } else { self.handle(o, Some(K::Thread)) }; regs[1] = self.prio(); }
            0x13 => regs[1] = self.rng.below(2) as u32,
            0x14 => regs[0] = self.handle(o, Some(K::Mutex)),
            0x15 => { regs[1] = self.rng.pick(&[0, 1, 2, 5, -1i32 as u32, i32::MAX as u32]); regs[2] = self.rng.pick(&[1, 3, 5, 0, -2i32 as u32, i32::MAX as u32]); }
            0x16 => { regs[1] = self.handle(o, Some(K::Sem)); regs[2] = self.rng.pick(&[1, 1, 1, 2, 3, 0, -1i32 as u32, i32::MAX as u32, i32::MIN as u32]); }
            0x17 | 0x1A => regs[1] = if self.is("pulse") { self.rng.pick(&[2, 2, 2, 0, 1]) } else { self.rng.pick(&[0, 1, 2, 2, 3, 0xFFFF]) },
            0x18 | 0x19 => regs[0] = self.handle(o, Some(K::Event)),
            0x1B => {
                regs[0] = self.handle(o, Some(K::Timer));
                let (a, b) = (self.nanos(), if self.rng.pct(30) { 0 } else if self.rng.pct(20) { self.rng.pick(&[1, 3, 4, 7, 8]) } else { self.nanos() });
                regs[2] = a as u32; regs[3] = (a >> 32) as u32; regs[1] = b as u32; regs[4] = (b >> 32) as u32;
            }
            0x1C | 0x1D => regs[0] = self.handle(o, Some(K::Timer)),
            0x22 => {
                regs[0] = if self.rng.pct(8) { self.handle(o, None) } else { self.handle(o, Some(K::Arb)) };
                let a = self.futex();
                regs[1] = a;
                let parked = o.sys.kernel.threads.iter().filter(|t| t.status == ThreadStatus::WaitArbiter).count() as u64;
                regs[2] = if self.rng.pct(2) { self.rng.pick(&[5, 6, u32::MAX]) } else if self.rng.pct(if self.is("records") { 3 } else if parked > 2 { 40 } else if parked > 0 { 20 } else { 6 }) { 0 } else { 1 + self.rng.below(4) as u32 };
                if regs[2] > 4 && self.rng.pct(50) { regs[0] = self.rng.pick(&[0, 5, 0xFFFF_8000, 0xFFFF_8001]); }
                if self.is("records") && regs[2] != 0 { regs[2] = 3; }
                if regs[2] == 0 {
                    let addrs: Vec<u32> = o.sys.kernel.threads.iter().filter_map(|t| t.wait_address).collect();
                    if !addrs.is_empty() && self.rng.pct(70) { regs[1] = self.rng.pick(&addrs); }
                    regs[3] = self.rng.pick(&[0, 1, 1, 1, 1, 1, 1, 2, 2, 3, -1i32 as u32, i32::MIN as u32, i32::MAX as u32]);
                } else {
                    let held = if self.inside(a) && a % 4 == 0 { let i = (a - self.base) as usize; u32::from_le_bytes(o.sys.memory.bytes[i..i + 4].try_into().unwrap()) } else { 0 };
                    regs[3] = if self.is("records") { i32::MAX as u32 } else { match self.rng.below(8) { 0 => held, 1 => held.wrapping_sub(1), 2 => self.rng.word(), _ => (held as i32).saturating_add(1 + self.rng.below(3) as i32) as u32 } };
                    let ns = if self.is("records") { self.rng.below(8) } else if self.is("arbiter") && self.rng.pct(40) { self.rng.pick(&[u64::MAX, 30_000_000, 300_000_000]) } else if self.is("arbiter") && self.rng.pct(60) { self.rng.below(3000) } else { self.nanos() };
                    regs[4] = ns as u32; regs[5] = (ns >> 32) as u32;
                    if self.rng.pct(10) && self.inside(a) { out.push(Op::Poke { addr: a, word: self.rng.pick(&[0, 1, 5, 0x8000_0000, u32::MAX]) }); }
                }
                if self.rng.pct(1) { regs[1] = self.rng.pick(&[a.wrapping_add(1), a.wrapping_add(2), 0, u32::MAX, u32::MAX - 3, self.base.wrapping_add(4 * self.words)]); }
            }
            0x23 => { regs[0] = self.handle(o, None); if (self.is("objects") || self.is("handles")) && self.rng.pct(80) { regs[0] = 5; } self.stale.push(regs[0]); if self.stale.len() > 12 { self.stale.remove(0); } }
            0x24 => {
                let k = self.rng.pick(&[Some(K::Event), Some(K::Mutex), Some(K::Sem), Some(K::Timer), Some(K::Thread), None]);
                let k = match PROFILES[self.profile] { "timers" if self.rng.pct(70) => Some(K::Timer), "mutex" if self.rng.pct(70) => Some(K::Mutex), "pulse" if self.rng.pct(80) => self.rng.pick(&[Some(K::Event), Some(K::Timer)]), _ => k };
                regs[0] = self.handle(o, k);
                let ns = self.nanos();
                regs[2] = ns as u32; regs[3] = (ns >> 32) as u32;
            }
            0x25 => {
                let n = self.rng.below(40) as usize;
                let n = match n { 0 => 0, 1 => LIST + 1, 2 => LIST, 3 | 4 => self.long(), x => 1 + x % 5 };
                let mut hs: Vec<u32> = Vec::new();
                for _ in 0..n {
                    let k = self.rng.pick(&[None, Some(K::Event), Some(K::Mutex), Some(K::Sem), Some(K::Timer), Some(K::Thread)]);
                    let h = if !hs.is_empty() && self.rng.pct(25) { self.rng.pick(&hs.clone()) } else { self.handle(o, k) };
                    hs.push(h);
                }
                // mostly no bad handle, or nearly every list would answer 16
                if self.rng.pct(85) { hs.retain(|h| *h >= 0xFFFF_8000 && *h <= 0xFFFF_8001 || o.sys.kernel.handles.resolve(*h).is_some()); }
                let ns = self.nanos();
                let all = self.rng.pct(50);
                let count = hs.len();
                self.waitn(o, &hs, all, ns, &mut out);
                if self.rng.pct(1) { if let Some(Op::Call { regs, .. }) = out.last_mut() { regs[2] = [LIST as u32 + 1, 100, u32::MAX][count % 3]; } }
                return out;
            }
            0x27 => regs[1] = self.handle(o, None),
            _ => {}
        }
        let t = self.advance(o);
        let c = self.call(num, regs, t);
        out.push(c);
        out
    }

    /// short scripts for corners that chance finds rarely.
    fn gadget(&mut self, o: &Oracle) -> Vec<Op> {
        let k = &o.sys.kernel;
        let next = crate::checked::holdings(&o.sys).next_handle;
        let t = self.tick;
        let cur = k.current_thread.unwrap();
        let z = [0u32; 6];
        let mut out = Vec::new();
        // a pulse event (or timer) that a blocked thread waits on
        let waited: Vec<(u32, u32, bool)> = k.threads.iter().enumerate().filter(|(i, t)| *i as u32 != cur && t.status == ThreadStatus::WaitSync)
            .flat_map(|(i, t)| t.wait_objects.iter().map(move |ob| (i as u32, *ob)))
            .filter_map(|(i, ob)| match k.objects.get(ob) {
                Some(KObject::Event(e)) if e.reset_type == zakuro_core::kernel::sync::ResetType::Pulse => Some((i, ob.0, false)),
                Some(KObject::Timer(e)) if e.reset_type == zakuro_core::kernel::sync::ResetType::Pulse => Some((i, ob.0, true)),
                _ => None,
            }).collect();
        match self.rng.below(6) {
            0 | 1 if !waited.is_empty() => {
                let (thread, ob, timer) = self.rng.pick(&waited);
                let hs: Vec<u32> = { let mut v: Vec<u32> = k.handles.iter().filter(|(_, x)| x.0 == ob).map(|(h, _)| h).collect(); v.sort(); v };
                if let Some(h) = hs.first() {
                    if timer {
                        out.push(Op::Call { num: 0x1B, regs: [*h, 0, 0, 0, 0, 0], tick: t });
                        out.push(Op::Call { num: 0x1D, regs: [0; 6], tick: t });
                    } else {
                        out.push(Op::Call { num: 0x18, regs: [*h, 0, 0, 0, 0, 0], tick: t });
                    }
                    let end = Op::End { thread };
                    if self.rng.pct(50) {
                        // the mark outlives the object, whoever reuses the slot gets cleared
                        for h in &hs { out.push(Op::Call { num: 0x23, regs: [*h, 0, 0, 0, 0, 0], tick: t }); }
                        out.push(end);
                        match self.rng.below(3) {
                            0 => { out.push(Op::Call { num: 0x17, regs: [0, 1, 0, 0, 0, 0], tick: t }); out.push(Op::Call { num: 0x18, regs: [next, 0, 0, 0, 0, 0], tick: t }); }
                            1 => { out.push(Op::Call { num: 0x1A, regs: [0, 1, 0, 0, 0, 0], tick: t }); out.push(Op::Call { num: 0x1B, regs: [next, 0, 0, 0, 0, 0], tick: t }); out.push(Op::Call { num: 0x1D, regs: z, tick: t }); }
                            _ => out.push(Op::Call { num: 0x15, regs: [0, 1, 1, 0, 0, 0], tick: t }),
                        }
                        if self.rng.pct(30) { out.push(Op::Call { num: 0x24, regs: [next, 0, 0, 0, 0, 0], tick: t }); }
                    } else {
                        // the mark is dropped by a timer's catch-up once nobody waits
                        out.push(end);
                        out.push(Op::Call { num: 0x1A, regs: [0, 0, 0, 0, 0, 0], tick: t });
                        out.push(Op::Call { num: 0x1B, regs: [next, 0, 0, 0, 0, 0], tick: t });
                        out.push(Op::Call { num: 0x1D, regs: z, tick: t });
                    }
                    out.push(Op::Pass { tick: t });
                }
            }
            2 => {
                // starving for several passes
                let since = k.threads[cur as usize].running_since;
                let edge = since.saturating_add(STARVATION);
                for d in 0..1 + self.rng.below(6) { out.push(Op::Pass { tick: edge.saturating_add(d).max(t) }); }
                self.tick = edge.saturating_add(8).max(t);
            }
            3 => {
                // a semaphore several times in one wait-all
                let c = self.rng.below(4) as u32;
                out.push(Op::Call { num: 0x15, regs: [0, c, 3, 0, 0, 0], tick: t });
                let n = 1 + self.rng.below(LIST as u64) as usize;
                let mut hs = vec![next; n];
                if self.rng.pct(30) { let h = self.handle(o, None); hs[0] = h; }
                let (all, ns) = (self.rng.pct(80), self.nanos());
                self.waitn(o, &hs, all, ns, &mut out);
            }
            4 => {
                // waits with a short time and no end in between
                let h = self.handle(o, None);
                out.push(Op::Call { num: 0x24, regs: [h, 0, 1 + self.rng.below(900) as u32, 0, 0, 0], tick: t });
                out.push(Op::Pass { tick: t.saturating_add(self.rng.below(300)) });
                out.push(Op::Collect);
            }
            _ => {
                let locked: Vec<u32> = k.objects.iter().filter_map(|(_, ob)| match ob { KObject::Mutex(m) => m.owner, _ => None }).collect();
                if !locked.is_empty() { out.push(Op::End { thread: self.rng.pick(&locked) }); out.push(Op::Pass { tick: t }); }
            }
        }
        out
    }

    /// gives some blocked thread what it waits for.
    fn give(&mut self, o: &Oracle) -> Vec<Op> {
        let k = &o.sys.kernel;
        let cur = k.current_thread.unwrap();
        let blocked: Vec<u32> = k.threads.iter().enumerate().filter(|(i, t)| *i as u32 != cur && (t.status == ThreadStatus::WaitArbiter || t.status == ThreadStatus::WaitSync && !t.wait_objects.is_empty())).map(|(i, _)| i as u32).collect();
        if blocked.is_empty() { return vec![]; }
        let who = &k.threads[self.rng.pick(&blocked) as usize];
        let mut out = Vec::new();
        let handle_of = |id: u32| -> Option<u32> { k.handles.iter().filter(|(_, x)| x.0 == id).map(|(h, _)| h).min() };
        if who.status == ThreadStatus::WaitArbiter {
            let Some(addr) = who.wait_address else { return vec![] };
            let mut v: Vec<u32> = k.objects.iter().filter(|(_, ob)| matches!(ob, KObject::AddressArbiter(a) if a.waiters.iter().any(|w| w.1 == addr))).filter_map(|(i, _)| handle_of(i.0)).collect();
            v.sort();
            if v.is_empty() { return vec![]; }
            let h = self.rng.pick(&v);
            let value = self.rng.pick(&[1, 1, 1, 2, 0, -1i32 as u32]);
            let tick = self.advance(o);
            out.push(Op::Call { num: 0x22, regs: [h, addr, 0, value, 0, 0], tick });
        } else {
            let objects = if who.wait_all { who.wait_objects.clone() } else { vec![self.rng.pick(&who.wait_objects)] };
            for id in objects {
                let Some(h) = handle_of(id.0) else { continue };
                let tick = self.tick;
                match k.objects.get(id) {
                    Some(KObject::Event(_)) => out.push(Op::Call { num: 0x18, regs: [h, 0, 0, 0, 0, 0], tick }),
                    Some(KObject::Mutex(_)) => out.push(Op::Call { num: 0x14, regs: [h, 0, 0, 0, 0, 0], tick }),
                    Some(KObject::Semaphore(_)) => out.push(Op::Call { num: 0x16, regs: [0, h, 1, 0, 0, 0], tick }),
                    Some(KObject::Timer(_)) => out.push(Op::Call { num: 0x1B, regs: [h, self.rng.below(2) as u32 * 500, self.rng.below(900) as u32, 0, 0, 0], tick }),
                    Some(KObject::Thread(t)) if k.threads.get(*t as usize).is_some_and(|t| t.status != ThreadStatus::Dead) => out.push(Op::End { thread: *t }),
                    _ => {}
                }
            }
        }
        if self.rng.pct(60) { let t = self.advance(o); out.push(Op::Pass { tick: t }); }
        out
    }

    fn by_hand(&mut self, o: &Oracle) -> Op {
        let k = &o.sys.kernel;
        let of = |want: K| -> Vec<u32> { k.objects.iter().filter(|(_, ob)| Self::kind(ob) == Some(want)).map(|(i, _)| i.0 + 1).collect() };
        for _ in 0..10 {
            match self.rng.below(10) {
                8 => { let h = crate::checked::holdings(&o.sys); if h.objects < 120 && h.handles < 250 && h.next_handle < 0xFFFF_7000 { return Op::Hand(Hand::Always); } }
                9 => return Op::Hand(Hand::Mark { object: (1 + self.rng.below(k.objects.iter().count() as u64 + 2) as u32).min(crate::OBJECTS as u32) }),
                0 => { let n = self.rng.pick(&[0xFFFF_7FFD, 0xFFFF_7FFE, 0xFFFF_7FFF, 0xFFFF_8000]); if n >= crate::checked::holdings(&o.sys).next_handle { return Op::Hand(Hand::NextHandle(n)); } }
                1 => return Op::Hand(Hand::NextGuest(self.rng.pick(&[u32::MAX, u32::MAX - 1, u32::MAX - 2, 0, 100, 1 << 20]))),
                2 => {
                    let owned = |ob: &KObject| match ob { KObject::Mutex(m) => m.owner, _ => None };
                    let v: Vec<(u32, u32)> = k.objects.iter().filter_map(|(i, ob)| Some((i.0, owned(ob)?))).collect();
                    if !v.is_empty() {
                        let (slot, owner) = self.rng.pick(&v);
                        let handle = k.handles.iter().filter(|(_, x)| x.0 == slot).map(|(h, _)| h).min();
                        // the last count that takes the longest list of locks, and one more
                        let near = u32::MAX - LIST as u32;
                        let mut count = self.rng.pick(&[u32::MAX, u32::MAX - 1, 2, near, near + 1]);
                        if let (true, Some(h)) = (k.current_thread == Some(owner) && self.rng.pct(60), handle) {
                            count = near + self.rng.below(2) as u32;
                            let mut out = Vec::new();
                            self.waitn(o, &[h; LIST], true, 0, &mut out);
                            self.queue.extend(out);
                        }
                        return Op::Hand(Hand::Lock { object: slot + 1, count });
                    }
                }
                3 => { let v = of(K::Sem); if !v.is_empty() { return Op::Hand(Hand::Sem { object: self.rng.pick(&v), count: self.rng.pick(&[i32::MIN, i32::MAX, i32::MIN + 3, 1, 0]), max: self.rng.pick(&[i32::MAX, i32::MIN, 0, 3]) }); } }
                4 | 5 => { let v = of(K::Timer); if !v.is_empty() {
                    let at = self.rng.pick(&[Some(0), Some(1), Some(u64::MAX), Some(self.tick), None]);
                    if self.rng.pct(25) {
                        // the one step that overflows: due 0, one tick, fired at 2^64 - 1
                        let num = self.rng.pick(&[0x1B, 0x1C, 0x1D, 0x24]);
                        let h = self.handle(o, None);
                        self.queue.push_back(Op::Call { num, regs: [h, 0, 0, 0, 0, 0], tick: u64::MAX });
                        return Op::Hand(Hand::Due { object: self.rng.pick(&v), at: Some(0), interval: 1 });
                    }
                    return Op::Hand(Hand::Due { object: self.rng.pick(&v), at, interval: self.rng.pick(&[0, 1, 2, 1000, u64::MAX, u64::MAX / 2]) }); } }
                6 => { let v: Vec<u32> = k.threads.iter().enumerate().filter(|(_, t)| t.status == ThreadStatus::Ready).map(|(i, _)| i as u32).collect(); if !v.is_empty() { return Op::Hand(Hand::Status { thread: self.rng.pick(&v), status: "Dormant" }); } }
                _ => { if let Some(c) = k.current_thread { if k.threads[c as usize].status == ThreadStatus::Running { return Op::Hand(Hand::Status { thread: c, status: "Ready" }); } } }
            }
        }
        Op::Hand(Hand::NextGuest(7))
    }

    /// the next operation, or none at the sequence's end.
    pub fn next(&mut self, o: &Oracle) -> Option<Op> {
        if let Some(op) = self.queue.pop_front() {
            if let Op::Call { tick, .. } | Op::Pass { tick } = &op { if *tick != u64::MAX || self.is("extreme") { self.tick = self.tick.max(*tick); } }
            return Some(op);
        }
        if self.left == 0 { return None; }
        self.left -= 1;
        let k = &o.sys.kernel;
        let running = k.current().is_some_and(|t| t.status == ThreadStatus::Running);
        let ops: Vec<Op> = if self.is("block") && self.rng.pct(6) {
            let mut other = Oracle { sys: o.sys.dup(), default_status: o.default_status, panics: vec![] };
            let at = self.base.wrapping_add(3) & !3;
            let at = at.min(u32::MAX - 64);
            let tick = self.tick;
            crate::state::perturb(&mut other.sys, &mut self.rng, tick, at);
            // only blocks that question 2 accepts
            if other.first_fault().is_none() {
                let lines = other.dump().into_iter().filter(|(k, _)| !k.starts_with('W') && k != "next_event" && k != "P").collect();
                vec![Op::Load(lines)]
            } else { vec![] }
        } else if self.is("hand") && self.rng.pct(8) || (self.is("threads") || self.is("records") || self.is("objects")) && self.prios.len() == 2 && self.rng.pct(2) { let h = self.by_hand(o); self.queue.push_front(h); vec![] }
        else if running && self.rng.pct(match PROFILES[self.profile] { "objects" | "handles" | "records" => 2, "arbiter" | "waits" => 25, _ => 14 }) { self.give(o) }
        else if running && !k.pulsed.is_empty() && self.rng.pct(25) {
            // what the looking operations say while a mark is there
            let tick = self.tick;
            let v = self.handles_of(o, Some(K::Mutex));
            let h = self.handle(o, Some(K::Event));
            let mut out = vec![Op::Satisfied { handles: vec![h], all: false, tick }];
            if v.is_empty() { out.push(Op::Call { num: 0x13, regs: [0; 6], tick }); out.push(Op::Quiet { handle: crate::checked::holdings(&o.sys).next_handle, tick }); }
            else { out.push(Op::Quiet { handle: self.rng.pick(&v), tick }); }
            out
        }
        else if running && self.rng.pct(if self.is("pulse") { 15 } else if self.is("starve") { 12 } else { 3 }) { self.gadget(o) }
        else {
            if running && k.current().is_some_and(|t| t.wait_result.is_some()) && self.rng.pct(40) { self.queue.push_back(Op::Collect); }
            let r = self.rng.below(100);
            let pass = if running { if self.is("objects") || self.is("handles") { 6 } else { 24 } } else { 82 };
            if r < pass && !running && self.rng.pct(60) {
                match k.next_event() {
                    Some(at) if at < self.tick.saturating_add(1 << 45) || self.is("extreme") => { let t = at.max(self.tick); vec![Op::Pass { tick: t }] }
                    _ if !k.threads.iter().any(|t| t.is_runnable()) => {
                        // all blocked for good: a new thread, or the end of one that something may wait on
                        let t = self.tick;
                        if self.rng.pct(70) && k.threads.len() < 30 { vec![self.create(), Op::Pass { tick: t }] }
                        else { let v: Vec<u32> = k.threads.iter().enumerate().filter(|(_, t)| t.status != ThreadStatus::Dead).map(|(i, _)| i as u32).collect();
                            if v.is_empty() { vec![self.create()] } else { vec![Op::End { thread: self.rng.pick(&v) }, self.create(), Op::Pass { tick: t }] } }
                    }
                    _ => { let t = self.advance(o); vec![Op::Pass { tick: t }] }
                }
            }
            else if r < pass { let t = self.advance(o); vec![Op::Pass { tick: t }] }
            else if r < pass + 10 {
                let any = self.rng.below(40) as u32;
                let n = k.threads.len() as u64;
                match self.rng.below(if running { 12 } else { 14 }) {
                    0 => vec![self.create()],
                    1 => {
                        // mostly leave a thread alive
                        let live: Vec<u32> = k.threads.iter().enumerate().filter(|(_, t)| t.status != ThreadStatus::Dead).map(|(i, _)| i as u32).collect();
                        let t = if live.len() > 1 && self.rng.pct(90) { self.rng.pick(&live) } else if self.rng.pct(80) { self.rng.below(n.max(1)) as u32 } else { any };
                        let mut v = vec![Op::End { thread: t }];
                        if live.len() < 3 { v.push(self.create()); }
                        v
                    }
                    2 => vec![Op::NextEvent],
                    3 | 4 => {
                        let long = self.long();
                        let n = self.rng.pick(&[0, 1, 1, 2, 2, 3, 5, WAIT_AT_ONCE, WAIT_AT_ONCE + 1, long]);
                        let handles = (0..n).map(|_| self.handle(o, None)).collect();
                        let all = self.rng.pct(50);
                        let tick = if self.rng.pct(70) { self.tick } else { self.advance(o) };
                        vec![Op::Satisfied { handles, all, tick }]
                    }
                    5 | 6 => { let handle = self.handle(o, Some(K::Mutex)); let tick = if self.rng.pct(60) { self.tick } else { self.advance(o) }; vec![Op::Quiet { handle, tick }] }
                    7..=9 => vec![Op::Collect],
                    10 => {
                        let mut w = Box::new([0u32; 52]);
                        for x in w.iter_mut() { *x = self.rng.word(); }
                        if n > 0 && self.rng.pct(50) { vec![Op::Bank { thread: self.rng.below(n) as u32, words: w }] } else { vec![Op::Cpu { words: w }] }
                    }
                    11 => { if self.words > 0 { let a = self.futex(); if self.inside(a) { vec![Op::Poke { addr: a, word: self.rng.below(3) as u32 }] } else { vec![] } } else { vec![] } }
                    _ => self.guest(o),
                }
            }
            else { self.guest(o) }
        };
        self.queue.extend(ops);
        // keep the world going when everything ended
        if self.queue.is_empty() { let t = self.tick; self.queue.push_back(Op::Pass { tick: t }); }
        if o.sys.kernel.live_thread_count() == 0 && self.rng.pct(60) { let c = self.create(); self.queue.push_back(c); }
        self.next(o)
    }
}
