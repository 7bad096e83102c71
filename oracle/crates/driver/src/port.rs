//! the library's operations. One that the library gains gets its entry here; the rest of the driver goes by the list.
use crate::lent::Lent;
use oracle::gen::Rng;
use oracle::{Op, Out, CALLS, LIST, WAIT_AT_ONCE};

pub struct Operation {
    pub name: &'static str,
    /// length of the answer slice.
    pub answer_len: usize,
    /// needs only question 1, and zeroes the bank.
    pub starts_fresh: bool,
    /// changes nothing lent but the answer slice.
    pub reads_only: bool,
    pub is: fn(&Op) -> bool,
    pub call: fn(&Op, &mut Lent, &mut [u8]) -> u32,
    /// the answer slice for what the original gave.
    pub answer: fn(&Out) -> Vec<u8>,
    /// an operation to try on a copy of a state, beside those of the sequence.
    pub try_on: fn(&mut Rng, &Lent) -> Option<Op>,
}

/// every export of the library.
pub const OPERATIONS: &[Operation] = &[
    FRESH_START,
    NEXT_EVENT,
    SATISFIED_NOW,
    QUIET_RELEASE,
    CREATE_THREAD,
    SCHEDULE,
    END_THREAD,
    dispatch::DISPATCH,
    COLLECT,
];

/// which of the library's operations run. The oracle does the others alone.
pub struct Chosen { names: Vec<&'static str>, calls: Vec<u32> }

impl Chosen {
    /// all of them.
    pub fn all() -> Chosen { Chosen { names: OPERATIONS.iter().map(|x| x.name).collect(), calls: vec![] } }

    /// names of operations and numbers of guest calls, which are hexadecimal, with a comma between them. `call` is every number.
    pub fn parse(list: &str) -> Result<Chosen, String> {
        let mut chosen = Chosen { names: vec![], calls: vec![] };
        for item in list.split(',') {
            let number = u32::from_str_radix(item.trim_start_matches("0x"), 16).ok().filter(|n| CALLS.contains(n));
            if let Some(x) = OPERATIONS.iter().find(|x| x.name == item) { chosen.names.push(x.name); }
            else { chosen.calls.push(number.ok_or(format!("the library has no {item}"))?); }
        }
        Ok(chosen)
    }

    pub fn operation(&self, op: &Op) -> Option<&'static Operation> {
        let x = OPERATIONS.iter().find(|x| (x.is)(op))?;
        let by_number = matches!(op, Op::Call { num, .. } if self.calls.contains(num));
        (by_number || self.names.contains(&x.name)).then_some(x)
    }
}

extern "C" {
    fn kernel_fresh_start(block: *mut u8, block_len: usize, bank: *mut u8, bank_len: usize, status_word: u32) -> u32;
    fn kernel_next_event(block: *const u8, block_len: usize, answer: *mut u8, answer_len: usize) -> u32;
    #[allow(clippy::too_many_arguments)]
    fn kernel_create_thread(
        block: *mut u8,
        block_len: usize,
        bank: *mut u8,
        bank_len: usize,
        answer: *mut u8,
        answer_len: usize,
        entry: u32,
        stack_top: u32,
        arg: u32,
        priority: u32,
        processor_id: u32,
    ) -> u32;
    fn kernel_schedule(
        block: *mut u8,
        block_len: usize,
        bank: *mut u8,
        bank_len: usize,
        processor: *mut u8,
        processor_len: usize,
        answer: *mut u8,
        answer_len: usize,
        tick: u64,
    ) -> u32;
    fn kernel_satisfied_now(
        block: *const u8,
        block_len: usize,
        handles: *const u8,
        handles_len: usize,
        answer: *mut u8,
        answer_len: usize,
        wait_all: u32,
        tick: u64,
    ) -> u32;
    fn kernel_quiet_release(block: *const u8, block_len: usize, answer: *mut u8, answer_len: usize, handle: u32, tick: u64) -> u32;
    fn kernel_end_thread(block: *mut u8, block_len: usize, thread: u32) -> u32;
    fn kernel_collect(block: *mut u8, block_len: usize, answer: *mut u8, answer_len: usize) -> u32;
}

const FRESH_START: Operation = Operation {
    name: "fresh",
    answer_len: 0,
    starts_fresh: true,
    reads_only: false,
    is: |op| matches!(op, Op::Fresh { .. }),
    call: |op, lent, _| {
        let Op::Fresh { status } = op else { unreachable!() };
        unsafe { kernel_fresh_start(lent.block.as_mut_ptr(), lent.block.len(), lent.bank.as_mut_ptr(), lent.bank.len(), *status) }
    },
    answer: |_| vec![],
    try_on: |r, _| r.pct(2).then(|| Op::Fresh { status: r.next() as u32 }),
};

const NEXT_EVENT: Operation = Operation {
    name: "next_event",
    answer_len: 16,
    starts_fresh: false,
    reads_only: true,
    is: |op| matches!(op, Op::NextEvent),
    call: |_, lent, answer| unsafe { kernel_next_event(lent.block.as_ptr(), lent.block.len(), answer.as_mut_ptr(), answer.len()) },
    answer: |out| {
        let Out::Tick(tick) = out else { unreachable!() };
        let mut bytes = (tick.is_some() as u64).to_le_bytes().to_vec();
        bytes.extend(tick.unwrap_or(0).to_le_bytes());
        bytes
    },
    try_on: |_, _| Some(Op::NextEvent),
};

const CREATE_THREAD: Operation = Operation {
    name: "create",
    answer_len: 4,
    starts_fresh: false,
    reads_only: false,
    is: |op| matches!(op, Op::Create { .. }),
    call: |op, lent, answer| {
        let Op::Create { entry, stack, arg, prio, proc } = op else { unreachable!() };
        let (block, bank) = (&mut lent.block, &mut lent.bank);
        unsafe {
            kernel_create_thread(
                block.as_mut_ptr(),
                block.len(),
                bank.as_mut_ptr(),
                bank.len(),
                answer.as_mut_ptr(),
                answer.len(),
                *entry,
                *stack,
                *arg,
                *prio,
                *proc as u32,
            )
        }
    },
    answer: |out| {
        let Out::Thread(thread) = out else { unreachable!() };
        thread.to_le_bytes().to_vec()
    },
    // a priority on either side of the lowest
    try_on: |r, _| {
        let prio = if r.pct(10) { r.next() as u32 } else { r.below(70) as u32 };
        Some(Op::Create { entry: r.next() as u32, stack: r.next() as u32, arg: r.next() as u32, prio, proc: r.next() as i32 })
    },
};

const SCHEDULE: Operation = Operation {
    name: "pass",
    answer_len: 4,
    starts_fresh: false,
    reads_only: false,
    is: |op| matches!(op, Op::Pass { .. }),
    call: |op, lent, answer| {
        let Op::Pass { tick } = op else { unreachable!() };
        let (block, bank, processor) = (&mut lent.block, &mut lent.bank, &mut lent.processor);
        unsafe {
            kernel_schedule(
                block.as_mut_ptr(),
                block.len(),
                bank.as_mut_ptr(),
                bank.len(),
                processor.as_mut_ptr(),
                processor.len(),
                answer.as_mut_ptr(),
                answer.len(),
                *tick,
            )
        }
    },
    answer: |out| {
        let Out::Switched(switched) = out else { unreachable!() };
        (*switched as u32).to_le_bytes().to_vec()
    },
    // ticks of every length, the last ones among them
    try_on: |r, _| {
        Some(Op::Pass { tick: any_tick(r) })
    },
};

/// a handle that may be open, or one of the two pseudo-handles.
fn any_handle(r: &mut Rng) -> u32 { if r.pct(4) { 0xFFFF_8000 + r.below(2) as u32 } else { 0x10000 + r.below(24) as u32 } }

fn any_tick(r: &mut Rng) -> u64 { if r.pct(5) { u64::MAX - r.below(3) } else { r.next() >> r.below(64) } }

/// from the most that satisfied_now looks at to one more than the longest list of 0x25.
fn long_list(r: &mut Rng) -> u64 { WAIT_AT_ONCE as u64 + r.below((LIST + 2 - WAIT_AT_ONCE) as u64) }

const SATISFIED_NOW: Operation = Operation {
    name: "satisfied",
    answer_len: 40,
    starts_fresh: false,
    reads_only: true,
    is: |op| matches!(op, Op::Satisfied { .. }),
    call: |op, lent, answer| {
        let Op::Satisfied { handles, all, tick } = op else { unreachable!() };
        let list: Vec<u8> = handles.iter().flat_map(|h| h.to_le_bytes()).collect();
        let (block, wait_all) = (&lent.block, *all as u32);
        unsafe { kernel_satisfied_now(block.as_ptr(), block.len(), list.as_ptr(), list.len(), answer.as_mut_ptr(), answer.len(), wait_all, *tick) }
    },
    answer: |out| {
        let Out::Satisfied(found) = out else { unreachable!() };
        let (objects, index) = found.unwrap_or_default();
        let words = [found.is_some() as u32, index].into_iter().chain(objects);
        words.flat_map(u32::to_le_bytes).collect()
    },
    try_on: |r, _| {
        let n = if r.pct(8) { long_list(r) } else { r.below(4) };
        Some(Op::Satisfied { handles: (0..n).map(|_| any_handle(r)).collect(), all: r.pct(50), tick: any_tick(r) })
    },
};

const QUIET_RELEASE: Operation = Operation {
    name: "quiet",
    answer_len: 12,
    starts_fresh: false,
    reads_only: true,
    is: |op| matches!(op, Op::Quiet { .. }),
    call: |op, lent, answer| {
        let Op::Quiet { handle, tick } = op else { unreachable!() };
        unsafe { kernel_quiet_release(lent.block.as_ptr(), lent.block.len(), answer.as_mut_ptr(), answer.len(), *handle, *tick) }
    },
    answer: |out| {
        let Out::Quiet(found) = out else { unreachable!() };
        let (object, frees) = found.unwrap_or_default();
        [found.is_some() as u32, object, frees as u32].into_iter().flat_map(u32::to_le_bytes).collect()
    },
    try_on: |r, _| Some(Op::Quiet { handle: any_handle(r), tick: any_tick(r) }),
};

const END_THREAD: Operation = Operation {
    name: "end",
    answer_len: 0,
    starts_fresh: false,
    reads_only: false,
    is: |op| matches!(op, Op::End { .. }),
    call: |op, lent, _| {
        let Op::End { thread } = op else { unreachable!() };
        unsafe { kernel_end_thread(lent.block.as_mut_ptr(), lent.block.len(), *thread) }
    },
    answer: |_| vec![],
    // mostly a thread that may exist
    try_on: |r, _| {
        let below = if r.pct(5) { 1 << 32 } else if r.pct(70) { 6 } else { 34 };
        Some(Op::End { thread: r.below(below) as u32 })
    },
};

const COLLECT: Operation = Operation {
    name: "collect",
    answer_len: 12,
    starts_fresh: false,
    reads_only: false,
    is: |op| matches!(op, Op::Collect),
    call: |_, lent, answer| unsafe { kernel_collect(lent.block.as_mut_ptr(), lent.block.len(), answer.as_mut_ptr(), answer.len()) },
    answer: |out| {
        let Out::Collected(result, call) = out else { unreachable!() };
        let (result, index) = result.unwrap_or_default();
        let call = crate::state::SYSCALLS.iter().position(|name| *name == call.unwrap_or("-")).unwrap();
        [result, index, call as u32].into_iter().flat_map(u32::to_le_bytes).collect()
    },
    try_on: |_, _| Some(Op::Collect),
};

/// guest calls.
mod dispatch {
    use super::{any_handle, any_tick, long_list, Operation};
    use crate::codec::get32;
    use crate::lent::Lent;
    use oracle::gen::Rng;
    use oracle::{Op, CALLS};

    extern "C" {
        #[allow(clippy::too_many_arguments)]
        fn kernel_dispatch(
            block: *mut u8,
            block_len: usize,
            bank: *mut u8,
            bank_len: usize,
            processor: *mut u8,
            processor_len: usize,
            window: *mut u8,
            window_len: usize,
            window_base: u32,
            number: u32,
            tick: u64,
        ) -> u32;
    }

    /// the caller has put the arguments into the processor.
    pub const DISPATCH: Operation = Operation {
        name: "call",
        answer_len: 0,
        starts_fresh: false,
        reads_only: false,
        is: |op| matches!(op, Op::Call { .. }),
        call: |op, lent, _| {
            let Op::Call { num, tick, .. } = op else { unreachable!() };
            let Lent { block, bank, processor, window, base } = lent;
            unsafe {
                kernel_dispatch(
                    block.as_mut_ptr(),
                    block.len(),
                    bank.as_mut_ptr(),
                    bank.len(),
                    processor.as_mut_ptr(),
                    processor.len(),
                    window.as_mut_ptr(),
                    window.len(),
                    *base,
                    *num,
                    *tick,
                )
            }
        },
        answer: |_| vec![],
        try_on: |r, lent| Some(any_call(r, lent)),
    };

    fn small(r: &mut Rng) -> u32 { if r.pct(10) { r.next() as u32 } else { r.below(6) as u32 } }
    /// a word's address, mostly in the window.
    fn any_address(r: &mut Rng, lent: &Lent) -> u32 {
        let at = lent.base.wrapping_add(3) & !3;
        at.wrapping_add(if r.pct(5) { r.below(600) as u32 } else { 4 * r.below(lent.window.len() as u64 / 4) as u32 })
    }
    fn nanos(r: &mut Rng) -> u64 { match r.below(4) { 0 => 0, 1 => u64::MAX - r.below(3), 2 => r.below(100_000), _ => r.next() >> r.below(64) } }

    /// handles, addresses and times where the call looks for them.
    fn any_call(r: &mut Rng, lent: &Lent) -> Op {
        let num = if r.pct(2) { r.next() as u32 >> r.below(32) } else { r.pick(&CALLS) };
        let mut regs: [u32; 6] = std::array::from_fn(|_| small(r));
        let mut time = |r: &mut Rng, low: usize, high: usize| { let ns = nanos(r); (regs[low], regs[high]) = (ns as u32, (ns >> 32) as u32); };
        match num {
            0x0A => time(r, 0, 1),
            0x1B => { time(r, 2, 3); time(r, 1, 4); }
            0x22 => time(r, 4, 5),
            0x24 => time(r, 2, 3),
            0x25 => time(r, 0, 4),
            _ => {}
        }
        match num {
            0x0C | 0x14 | 0x18 | 0x19 | 0x1B | 0x1C | 0x1D | 0x22 | 0x23 | 0x24 => regs[0] = any_handle(r),
            0x16 | 0x27 => regs[1] = any_handle(r),
            _ => {}
        }
        if matches!(num, 0x22 | 0x25) { regs[1] = any_address(r, lent); }
        if num == 0x25 && r.pct(25) { regs[2] = long_list(r) as u32; }
        // arbitration near the word that is there
        let at = regs[1].wrapping_sub(lent.base) as usize;
        if num == 0x22 && r.pct(70) && lent.window.len() >= 4 && at <= lent.window.len() - 4 { regs[3] = get32(&lent.window, at).wrapping_add(regs[3]); }
        Op::Call { num, regs, tick: any_tick(r) }
    }
}
