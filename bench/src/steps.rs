// Instructions executed, counted exactly: the processor's trap flag stops after each one. Only on x86-64 under Linux; elsewhere nothing is counted.
use crate::cases::Side;

/// From the loading of the arguments to the answer in the caller's hand; a refill before the call isn't counted.
#[cfg(all(target_arch = "x86_64", target_os = "linux"))]
pub fn steps(side: &Side) -> Option<u64> {
    (side.once)(); // whatever is done only at a first call
    (side.refill)();
    let empty: Box<dyn Fn()> = Box::new(|| ());
    let own = stepped::count(&*empty);
    Some(stepped::count(&*side.once) - own)
}

#[cfg(not(all(target_arch = "x86_64", target_os = "linux")))]
pub fn steps(_: &Side) -> Option<u64> {
    None
}

#[cfg(all(target_arch = "x86_64", target_os = "linux"))]
mod stepped {
    use std::arch::asm;
    use std::sync::atomic::{AtomicU64, Ordering::Relaxed};
    use std::sync::Once;

    static COUNT: AtomicU64 = AtomicU64::new(0);
    static LAST: AtomicU64 = AtomicU64::new(0);

    // struct sigaction of the C library
    #[repr(C)]
    struct Action {
        handler: extern "C" fn(i32, *const u8, *const u8),
        mask: [u64; 16],
        flags: i32,
        restorer: usize,
    }
    extern "C" {
        fn sigaction(signal: i32, new: *const Action, old: *mut Action) -> i32;
    }
    const SIGTRAP: i32 = 5;
    const SA_SIGINFO: i32 = 4;
    const RIP: usize = 168; // place of the instruction pointer in ucontext_t

    /// Runs before the next instruction. A repeated string instruction traps after each round and counts once: it is still the next one.
    extern "C" fn trapped(_: i32, _: *const u8, context: *const u8) {
        let next = unsafe { *(context.add(RIP) as *const u64) };
        if LAST.swap(next, Relaxed) != next {
            COUNT.store(COUNT.load(Relaxed) + 1, Relaxed);
        }
    }

    #[inline(never)]
    pub fn count(f: &dyn Fn()) -> u64 {
        static READY: Once = Once::new();
        READY.call_once(|| {
            let action = Action { handler: trapped, mask: [0; 16], flags: SA_SIGINFO, restorer: 0 };
            assert_eq!(unsafe { sigaction(SIGTRAP, &action, std::ptr::null_mut()) }, 0);
        });
        COUNT.store(0, Relaxed);
        LAST.store(0, Relaxed);
        unsafe { asm!("pushfq", "or qword ptr [rsp], 0x100", "popfq") };
        f();
        unsafe { asm!("pushfq", "and qword ptr [rsp], -0x101", "popfq") };
        COUNT.load(Relaxed)
    }
}
