#!/usr/bin/env python3
"""how well the generated sequences tell wrong kernels apart: builds copies of the workspace whose
kernel source has one wrong line, replays the same operations and counts the sequences whose trace
differs.  usage: mutants.py [count] [first seed] [wrong|equal]   (the oracle itself is never edited)"""
import os, shutil, subprocess, sys, hashlib
here = os.path.dirname(os.path.dirname(os.path.abspath(__file__)))
work = os.path.join(here, "target", "mutants" + ("-equal" if sys.argv[3:] == ["equal"] else ""))
argv = sys.argv[1:] + ["300", "1", "wrong"][len(sys.argv) - 1:]
count, seed, which = argv[0], argv[1], argv[2]
# changes that document 01 says (or that we claim) make no difference: each must give 0
EQUAL = [
 ("a thread's second record in one arbiter for one address not stored", "svc", "arbiter.waiters.push((thread_id, address));", "if !arbiter.waiters.contains(&(thread_id, address)) { arbiter.waiters.push((thread_id, address)); }"),
 ("timers as the set of live timer slots, in slot order", "mod", "let mut fired = false;", "let mut fired = false; self.timers = self.objects.iter().filter(|(_, o)| matches!(o, KObject::Timer(_))).map(|(i, _)| i).collect();"),
 ("marks as a set", "mod", "        if !self.fire_timers(tick) {", "        self.pulsed.sort(); self.pulsed.dedup();\n        if !self.fire_timers(tick) {"),
 ("nanos_to_ticks in 128 bits", "thread", "(nanos / 1_000_000_000) * CPU_CLOCK_HZ + (nanos % 1_000_000_000) * CPU_CLOCK_HZ / 1_000_000_000", "((nanos as u128) * (CPU_CLOCK_HZ as u128) / 1_000_000_000u128) as u64"),
 ("the else of schedule's (Some, None) arm never sees Running", "mod", "thread.context.save_from(cpu);\n                if thread.status == ThreadStatus::Running {\n                    thread.status = ThreadStatus::Ready;\n                }\n                self.current_thread = None;", "thread.context.save_from(cpu);\n                self.current_thread = None;"),
]
M = [
 ("equals take turns at each pass", "mod", "thread.status == ThreadStatus::Running && thread.priority <= best", "thread.status == ThreadStatus::Running && thread.priority < best"),
 ("pick starts at the current, not after it", "mod", "map_or(0, |id| id as usize + 1)", "map_or(0, |id| id as usize)"),
 ("starving at >= ", "mod", "if tick.saturating_sub(thread.running_since) > STARVATION_TICKS {", "if tick.saturating_sub(thread.running_since) >= STARVATION_TICKS {"),
 ("stand-in strictly below", "mod", "t.is_runnable() && t.priority >= priority)", "t.is_runnable() && t.priority > priority)"),
 ("relief never flips off", "mod", "self.relief = !self.relief;", "self.relief = true;"),
 ("time-out before satisfaction", "mod", "if let Some(index) = satisfied {\n                    if wait_all {\n                        for k", "if let Some(index) = satisfied.filter(|_| !timed_out) {\n                    if wait_all {\n                        for k"),
 ("wait-all rechecks between acquires", "mod", "let object = self.threads[id as usize].wait_objects[k];\n                            self.acquire(object, id);", "let object = self.threads[id as usize].wait_objects[k];\n                            if self.is_signaled(object, id) { self.acquire(object, id); }"),
 ("timers fired after the waits", "mod", "self.fire_timers(tick);\n        for id in 0..self.threads.len() as ThreadId {\n            self.try_satisfy_wait(id, tick);\n        }", "for id in 0..self.threads.len() as ThreadId {\n            self.try_satisfy_wait(id, tick);\n        }\n        self.fire_timers(tick);"),
 ("next due as tick plus interval", "mod", "at.saturating_add(timer.interval.saturating_mul((tick - at) / timer.interval + 1))", "tick.saturating_add(timer.interval)"),
 ("due only when past", "mod", "timer.fire_at.filter(|&at| at <= tick)", "timer.fire_at.filter(|&at| at < tick)"),
 ("pulse mark dies with its object", "object", "self.slots[id.0 as usize] = None;", "self.slots[id.0 as usize] = None; crate::kernel::dead_mark(id);"),
 ("marks cleared before the waits", "mod", None, None),
 ("catch-up clears events too", "mod", "if let Some(KObject::Timer(timer)) = objects.get_mut(id) {\n                    timer.signaled = false;\n                }", "match objects.get_mut(id) { Some(KObject::Timer(timer)) => timer.signaled = false, Some(KObject::Event(event)) => event.signaled = false, _ => {} }"),
 ("catch-up keeps event marks", "mod", "            waited\n        });", "            waited || matches!(objects.get_mut(id), Some(KObject::Event(_)))\n        });"),
 ("catch-up keeps all pulses", "mod", "            if !waited {\n                if let Some(KObject::Timer(timer))", "            if false {\n                if let Some(KObject::Timer(timer))"),
 ("pulse never lost", "mod", "if !waited {\n                    return;\n                }", ""),
 ("one-shot timer not consumed", "mod", "if timer.reset_type == ResetType::OneShot {", "if timer.reset_type == ResetType::Pulse {"),
 ("next_event counts every timer", "mod", "if !waited {\n                continue;\n            }", ""),
 ("wait does not hold its objects", "mod", "for &object in &objects {\n            self.objects.add_ref(object);\n        }", ""),
 ("end leaves mutexes locked", "mod", "mutex.owner = None;\n                mutex.lock_count = 0;", ""),
 ("end leaves the wait result", "mod", "thread.status = ThreadStatus::Dead;\n        thread.wait_result = None;", "thread.status = ThreadStatus::Dead;"),
 ("dead named place reused", "mod", "self.objects.refcount(object) <= 1)", "self.objects.refcount(object) <= 2)"),
 ("dead place never reused", "mod", "status == ThreadStatus::Dead && unnamed(id))", "status == ThreadStatus::Dead && unnamed(id) && id > 1000)"),
 ("forget leaves the records", "mod", "arbiter.waiters.retain(|&(thread, _)| thread != id);", ""),
 ("highest TLS first", "mod", "self.free_tls.pop_first()", "self.free_tls.pop_last()"),
 ("waited not set when blocked", "mod", "if !thread.is_runnable() {\n                thread.waited = true;\n            }", ""),
 ("sleep clears the old result", "mod", "thread.wakeup_at = Some(tick.saturating_add(ticks));", "thread.wakeup_at = Some(tick.saturating_add(ticks)); thread.wait_result = None;"),
 ("arbiter wait clears the old result", "svc", "thread.wait_address = Some(address);", "thread.wait_address = Some(address); thread.wait_result = None;"),
 ("address woken in arrival order", "svc", "arbiter.waiters.push((thread_id, address));", "arbiter.waiters.retain(|w| *w != (thread_id, address)); arbiter.waiters.push((thread_id, address));"),
 ("stale records count", "svc", "to_wake.contains(&thread) {\n                    return false;", "to_wake.contains(&thread) {\n                    woken += 1;\n                    return false;"),
 ("signal looks at status only", "svc", "|| parked.wait_address != Some(address) ", ""),
 ("arbiter handle kind checked", "svc", "    system.cpu.regs[0] = 0;\n\n    log::trace!(\n        \"svcArbitrateAddress", "    if !matches!(system.kernel.objects.get(object), Some(KObject::AddressArbiter(_))) { system.cpu.regs[0] = errors::INVALID_HANDLE.0; return; }\n    system.cpu.regs[0] = 0;\n\n    log::trace!(\n        \"svcArbitrateAddress"),
 ("handle before kind in 0x22", "svc", "let Some(kind) = ArbitrationType::from_raw(system.cpu.regs[2]) else {", "if system.kernel.resolve(handle).is_none() { system.cpu.regs[0] = errors::INVALID_HANDLE.0; return; }\n    let Some(kind) = ArbitrationType::from_raw(system.cpu.regs[2]) else {"),
 ("sleep signed", "svc", "    let ticks = if nanos != 0 {", "    let nanos = (nanos as i64).max(0) as u64;\n    let ticks = if nanos != 0 {"),
 ("yield ignores due events", "svc", "is_some_and(|at| at <= tick)", "is_some_and(|at| at < tick && at > tick)"),
 ("no-op yield leaves running_since", "svc", "thread.running_since = tick;\n        }\n        system.cpu.regs[0] = 0;\n        return;", "}\n        system.cpu.regs[0] = 0;\n        return;"),
 ("mutex release checks the owner", "svc", "mutex.lock_count = mutex.lock_count.saturating_sub(1);\n        if mutex.lock_count == 0 {", "if mutex.owner == system.kernel.current_thread { mutex.lock_count = mutex.lock_count.saturating_sub(1); }\n        if mutex.lock_count == 0 {"),
 ("semaphore release keeps above max", "svc", "(semaphore.count + count).min(semaphore.max_count)", "(semaphore.count + count).min(semaphore.max_count.max(previous))"),
 ("set_timer leaves the signal", "svc", "timer.interval = nanos_to_ticks(interval);\n        timer.signaled = false;", "timer.interval = nanos_to_ticks(interval);"),
 ("set_timer no catch-up", "svc", "system.kernel.catch_up_timers(now);", ""),
 ("wait1 no catch-up", "svc", "let handle = system.cpu.regs[0];\n    system.kernel.catch_up_timers(system.cpu.cycles);\n    let timeout", "let handle = system.cpu.regs[0];\n    let timeout"),
 ("cancel clears the signal", "svc", "timer.fire_at = None;", "timer.fire_at = None; timer.signaled = false;"),
 ("negative waits time out", "svc", "(signed_timeout > 0).then(|| nanos_to_ticks(timeout));\n    system.kernel.begin_wait(vec![object]", "Some(nanos_to_ticks(timeout));\n    system.kernel.begin_wait(vec![object]"),
 ("freed slots first in first out", "object", "self.free.pop()", "(!self.free.is_empty()).then(|| self.free.remove(0))"),
 ("handles reused", "object", "self.next += 1;", "self.next += 1; if self.entries.is_empty() { self.next = 0x0001_0001; }"),
 ("reset type 3 is sticky", "sync", "2 => ResetType::Pulse,", "2 => ResetType::Pulse,\n            3 => ResetType::Sticky,"),
 ("quiet_release looks at ownership", "mod", "if mutex.lock_count > 1 {\n            return Some((object, false));", "if mutex.lock_count > 1 && mutex.owner == self.current_thread {\n            return Some((object, false));"),
 ("quiet_release ignores marks", "mod", "|| !self.pulsed.is_empty()\n", ""),
 ("satisfied_now ignores due timers", "mod", "if handles.len() > WAIT_AT_ONCE || self.timer_due(tick) {", "if handles.len() > WAIT_AT_ONCE {"),
 ("satisfied_now takes pseudo-handles as unknown only after others", "mod", "if handle == CURRENT_THREAD || handle == CURRENT_PROCESS {\n                return None;\n            }\n            *object", "if handle == CURRENT_PROCESS { if let Some(p) = self.process_object { *object = p; continue; } }\n            *object"),
 ("thread keeps its core without saving", "mod", "thread.context.save_from(cpu);\n                    if thread.status", "if thread.status"),
 ("entry keeps bit 0", "thread", "regs[15] = entry & !1;", "regs[15] = entry;"),
 ("negative count is signalled", "mod", "semaphore.count > 0,", "semaphore.count != 0,"),
 ("quiet_release not at equal priority", "mod", "thread.priority >= running.priority,", "thread.priority > running.priority,"),
 ("yield of 20,001 ticks", "svc", "const YIELD_TICKS: u64 = 20_000;", "const YIELD_TICKS: u64 = 20_001;"),
 ("signal wakes at most one", "svc", "if unlimited || woken < value {", "if woken < 1 {"),
 ("stack top and argument swapped", "thread", "regs[0] = arg;\n        regs[13] = stack_top;", "regs[0] = stack_top;\n        regs[13] = arg;"),
 ("semaphore release leaves r1", "svc", "system.cpu.regs[1] = previous as u32;", ""),
 ("switched flag inverted", "mod", "pub fn schedule(&mut self, cpu: &mut Cpu, tick: u64) -> bool {", "pub fn schedule(&mut self, cpu: &mut Cpu, tick: u64) -> bool { !self.schedule_as(cpu, tick) }\n    fn schedule_as(&mut self, cpu: &mut Cpu, tick: u64) -> bool {"),
]
if which == 'equal': M = EQUAL
if len(sys.argv) > 4: M = [m for m in M if any(w in m[0] for w in sys.argv[4:])]
def sh(*a, **k): return subprocess.run(a, capture_output=True, text=True, **k)
sh("cargo", "build", "--offline", cwd=here)
base = os.path.join(here, "target/debug/oracle")
ops = sh(base, "ops", "--seed", seed, "--count", count).stdout
def digest(binary):
    p = subprocess.run([binary, "run"], input=ops, capture_output=True, text=True, timeout=900)
    seqs = p.stdout.split("# sequence ")[1:]
    return {s.split("\n", 1)[0]: hashlib.md5(s.encode()).digest() for s in seqs}, p.returncode
good, _ = digest(base)
shutil.rmtree(os.path.join(work, "crates"), ignore_errors=True); os.makedirs(work, exist_ok=True)
for f in ["Cargo.toml", "Cargo.lock"]: shutil.copy(os.path.join(here, f), work)
shutil.copytree(os.path.join(here, "crates"), os.path.join(work, "crates"))
kd = os.path.join(work, "crates/zakuro-core/src/kernel")
src = {n: open(f"{kd}/{n}.rs").read() for n in ["mod", "object", "sync", "thread", "svc"]}
missed = 0
for name, f, old, new in M:
    if old is None:
        old = "        for id in 0..self.threads.len() as ThreadId {\n            self.try_satisfy_wait(id, tick);\n        }\n        for id in std::mem::take(&mut self.pulsed) {\n            match self.objects.get_mut(id) {\n                Some(KObject::Event(event)) => event.signaled = false,\n                Some(KObject::Timer(timer)) => timer.signaled = false,\n                _ => {}\n            }\n        }\n"
        a, b = old.split("        for id in std::mem")
        new = "        for id in std::mem" + b + a
    text = src[f]
    if old not in text: print(f"?? no place for: {name}"); continue
    for n in src: open(f"{kd}/{n}.rs", "w").write(src[n])
    t = text.replace(old, new, 1)
    if "dead_mark" in new:
        # release frees the slot: remember, and let the kernel drop the mark at the next pass
        open(f"{kd}/mod.rs", "w").write(src["mod"].replace("        for id in std::mem::take(&mut self.pulsed) {", "        let dead = DEAD.with(|d| std::mem::take(&mut *d.borrow_mut()));\n        self.pulsed.retain(|p| !dead.contains(&p.0));\n        for id in std::mem::take(&mut self.pulsed) {", 1)
          + "\nthread_local! { static DEAD: std::cell::RefCell<Vec<u32>> = const { std::cell::RefCell::new(Vec::new()) }; }\npub fn dead_mark(id: ObjectId) { DEAD.with(|d| d.borrow_mut().push(id.0)); }\n")
    open(f"{kd}/{f}.rs", "w").write(t)
    r = sh("cargo", "build", "--offline", cwd=work)
    if r.returncode: print(f"!! does not build: {name}\n" + r.stderr[-600:]); continue
    try: d, rc = digest(os.path.join(work, "target/debug/oracle"))
    except subprocess.TimeoutExpired: print(f"killed (hangs)  {name}"); continue
    n = sum(1 for k in good if d.get(k) != good[k])
    missed += n == 0
    print(f"{n:5d}/{len(good)} {'' if n else ('(equal) ' if which == 'equal' else 'MISSED ')}{name}{' (panicked)' if rc else ''}", flush=True)
print("missed:" if which != 'equal' else 'equal:', missed)
