//! Counts the instructions of this thread by the kernel's counters (`perf_event_open`), where the machine has them.

use std::ffi::{c_int, c_long, c_ulong};

extern "C" {
    fn syscall(number: c_long, ...) -> c_long;
    fn ioctl(file: c_int, request: c_ulong, ...) -> c_int;
    fn read(file: c_int, to: *mut u64, bytes: usize) -> isize;
    fn close(file: c_int) -> c_int;
}

const PERF_EVENT_OPEN: c_long = 298;
const ENABLE: c_ulong = 0x2400;
const DISABLE: c_ulong = 0x2401;
const RESET: c_ulong = 0x2403;

/// `struct perf_event_attr`, the first 64 bytes: the rest came later and may be left out.
#[repr(C)]
struct Attributes {
    kind: u32,
    size: u32,
    config: u64,
    period: u64,
    sample: u64,
    read: u64,
    flags: u64,
    wakeup: u32,
    breakpoint: u32,
    address: u64,
}

const _: () = assert!(std::mem::size_of::<Attributes>() == 64);

pub struct Counter(c_int);

impl Counter {
    /// A counter of the instructions outside of the kernel; none where the machine does not count them.
    pub fn instructions() -> Option<Counter> {
        if !cfg!(all(target_os = "linux", target_arch = "x86_64")) {
            return None;
        }
        // a hardware counter (0), instructions (1); disabled at first, without kernel and hypervisor
        let flags = 1 | 1 << 5 | 1 << 6;
        let attributes = Attributes {
            kind: 0,
            size: 64,
            config: 1,
            period: 0,
            sample: 0,
            read: 0,
            flags,
            wakeup: 0,
            breakpoint: 0,
            address: 0,
        };
        let (this_thread, any_core, no_group, no_flags): (c_int, c_int, c_int, c_ulong) = (0, -1, -1, 0);
        // SAFETY: the attributes live through the call, which only reads them.
        let file = unsafe { syscall(PERF_EVENT_OPEN, &attributes, this_thread, any_core, no_group, no_flags) };
        (file >= 0).then_some(Counter(file as c_int))
    }

    /// How many instructions this takes.
    pub fn count(&self, run: impl FnOnce()) -> u64 {
        let mut count = 0;
        // SAFETY: the file is a counter's, and what is read is one number.
        unsafe {
            ioctl(self.0, RESET, 0);
            ioctl(self.0, ENABLE, 0);
            run();
            ioctl(self.0, DISABLE, 0);
            assert_eq!(read(self.0, &mut count, 8), 8);
        }
        count
    }
}

impl Drop for Counter {
    fn drop(&mut self) {
        // SAFETY: the file is this counter's.
        unsafe { close(self.0) };
    }
}
