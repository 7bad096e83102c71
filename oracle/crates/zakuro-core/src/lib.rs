//! stand-in for zakuro-core's lib.rs around the unchanged kernel/*.rs (copied by scripts/copy-original.sh).
#![allow(dead_code)]
pub mod kernel;
pub mod memory;
pub mod services;

use kernel::Kernel;
use std::collections::BTreeSet;
use zakuro_cpu::Cpu;

/// how the original is built; zakuro-core-wrap, which has no build script, is not asked.
pub const OPT_LEVEL: &str = match option_env!("ORIGINAL_OPT_LEVEL") { Some(level) => level, None => "?" };
pub const DEBUG_ASSERTIONS: bool = cfg!(debug_assertions);

pub const CYCLES_PER_FRAME: u64 = 4_481_136;

/// the fields of the real System that svc.rs touches.
pub struct System {
    pub cpu: Cpu,
    pub memory: memory::Memory,
    pub kernel: Kernel,
    pub services: services::ServiceState,
    pub exited: bool,
    pub broke: bool,
    pub debug_output: String,
    pub unimplemented_svcs: BTreeSet<u32>,
}

impl System {
    pub fn new() -> System {
        System {
            cpu: Cpu::new(),
            memory: memory::Memory::default(),
            kernel: Kernel::new(0, memory::MemoryRegion::Application, 0),
            services: Default::default(),
            exited: false,
            broke: false,
            debug_output: String::new(),
            unimplemented_svcs: BTreeSet::new(),
        }
    }
    /// the real one maps the page and zeroes the block of the new thread's TLS in guest memory;
    /// memory mapping is outside the scope.
    pub fn map_tls_page(&mut self, _thread: kernel::thread::ThreadId) {}
    pub fn recent_instructions(&self) -> Vec<u32> { Vec::new() }
    /// a deep copy, through the stand-in serde derives.
    pub fn dup(&self) -> System {
        System {
            cpu: self.cpu.clone(),
            memory: self.memory.clone(),
            kernel: serde::Deserialize::dup(&self.kernel),
            services: self.services.clone(),
            exited: self.exited,
            broke: self.broke,
            debug_output: self.debug_output.clone(),
            unimplemented_svcs: self.unimplemented_svcs.clone(),
        }
    }
}
