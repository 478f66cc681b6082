//! Counts the instructions of a call. The processor's trap flag makes it stop
//! after every instruction, the system turns each stop into a signal, and the
//! signal's handler counts. No clock and no counter of the machine takes part,
//! so an emulator that follows the processor counts the same. The unsafe code
//! that this needs stands here.

use std::arch::asm;
use std::sync::atomic::{AtomicU64, Ordering};

/// The signal of a trap on x86-64 Linux.
const SIGTRAP: i32 = 5;
/// What `signal` answers where it refuses.
const SIG_ERR: usize = usize::MAX;

extern "C" {
    /// C's own, from the library that the standard library links. The handler
    /// stays in place from one signal to the next.
    fn signal(number: i32, handler: extern "C" fn(i32)) -> usize;
}

static STEPS: AtomicU64 = AtomicU64::new(0);

/// The system clears the trap flag for the handler and sets it again behind it,
/// so the handler's own instructions are not counted.
extern "C" fn on_trap(_: i32) {
    STEPS.fetch_add(1, Ordering::Relaxed);
}

struct Call<T, F> {
    work: F,
    answer: Option<T>,
}

extern "C" fn enter<T, F: FnMut() -> T>(call: &mut Call<T, F>) {
    call.answer = Some((call.work)());
}

/// All instructions from the one behind the flag's setting to the one that
/// clears it. `work` must not panic: nothing may unwind through the assembly.
#[inline(never)]
fn stepped<T, F: FnMut() -> T>(call: &mut Call<T, F>) -> u64 {
    let enter: extern "C" fn(&mut Call<T, F>) = enter;
    STEPS.store(0, Ordering::Relaxed);
    // Safe: the stack is as it was afterwards and aligned at the call, `call` is
    // a live reference while `enter` has it, and all that a C function may change
    // is named as changed.
    unsafe {
        asm!(
            "pushfq",
            "or qword ptr [rsp], 0x100",
            "popfq",
            "call {enter}",
            "pushfq",
            "and qword ptr [rsp], -0x101",
            "popfq",
            enter = in(reg) enter,
            in("rdi") call as *mut Call<T, F>,
            clobber_abi("C"),
        );
    }
    STEPS.load(Ordering::Relaxed)
}

/// The instructions that `work` takes, less those of a call that does nothing,
/// and its answer. What hands over the arguments and lays down the answer counts
/// as work, and an instruction that repeats itself counts once a turn. `start`
/// comes first, and `work` must not panic.
pub fn counted<T, F: FnMut() -> T>(work: F) -> (u64, T) {
    let empty = stepped(&mut Call {
        work: || (),
        answer: None,
    });
    let mut call = Call { work, answer: None };
    let steps = stepped(&mut call);
    let answer = call.answer.expect("the work was done");
    (steps.saturating_sub(empty), answer)
}

/// A loop of two instructions.
fn turns(mut count: u64) -> u64 {
    let work = || {
        // Safe: it counts a register down, and `count` is not 0.
        unsafe {
            asm!("2:", "dec {0}", "jnz 2b", inout(reg) count, options(nomem, nostack));
        }
        count
    };
    counted(work).0
}

/// Makes ready to count. False where a trap does not come after every single
/// instruction, which a loop of known length tells: then nothing can be counted.
pub fn start() -> bool {
    // Safe: the handler does nothing but add to a number.
    let before = unsafe { signal(SIGTRAP, on_trap) };
    before != SIG_ERR && turns(2_000).checked_sub(turns(1_000)) == Some(2_000)
}
