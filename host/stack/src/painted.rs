//! A stack of our own for a call to run on, painted with a pattern: what the call overwrites is what
//! it takes.

use std::arch::asm;

/// No value that a call leaves on its stack but by chance.
const PATTERN: u64 = 0x5AC3_96F0_A53C_690F;

/// Bytes of a stack: many times what a call takes.
const STACK_BYTES: usize = 512 << 10;

/// Sixteen bytes, aligned as the calling convention wants the stack.
#[derive(Clone, Copy, PartialEq, Eq)]
#[repr(C, align(16))]
struct Line([u64; 2]);

const PAINT: Line = Line([PATTERN; 2]);

/// A painted stack. It grows down from its last line.
pub struct PaintedStack {
    lines: Vec<Line>,
}

impl PaintedStack {
    pub fn new() -> PaintedStack {
        PaintedStack { lines: vec![PAINT; STACK_BYTES / size_of::<Line>()] }
    }

    /// Runs a call on this stack. Gives the bytes from its beginning down to the deepest one
    /// overwritten, in sixteens, and paints them anew.
    pub fn depth_of(&mut self, mut call: impl FnMut()) -> usize {
        run_on(&mut self.lines, &mut call);
        let untouched = self.lines.iter().take_while(|line| **line == PAINT).count();
        assert!(untouched > 0, "the call went beyond {STACK_BYTES} bytes");
        let touched = &mut self.lines[untouched..];
        touched.fill(PAINT);
        size_of_val(touched)
    }
}

impl Default for PaintedStack {
    fn default() -> PaintedStack {
        PaintedStack::new()
    }
}

/// The call as a C function.
extern "C" fn enter<F: FnMut()>(call: &mut F) {
    call();
}

/// Runs a call with the stack pointer at the end of a slice.
///
/// Why it is sound: the slice is borrowed for as long as the call runs and nothing else looks at it,
/// its end is aligned to sixteen bytes as the calling convention wants, and the old stack pointer
/// waits in a register that every C function restores. `enter` is such a function, ends the process
/// where the call would unwind, and gets the closure by a reference that outlives it.
#[allow(unsafe_code)]
fn run_on<F: FnMut()>(stack: &mut [Line], call: &mut F) {
    let end = stack.as_mut_ptr_range().end;
    unsafe {
        asm!(
            "mov r12, rsp",
            "mov rsp, {end}",
            "call {enter}",
            "mov rsp, r12",
            end = in(reg) end,
            enter = sym enter::<F>,
            in("rdi") call,
            out("r12") _,
            clobber_abi("C"),
        );
    }
}

#[cfg(test)]
mod tests {
    use super::PaintedStack;
    use std::hint::black_box;

    /// Fills so many bytes of stack.
    #[inline(never)]
    fn fill<const BYTES: usize>() {
        black_box([black_box(1_u8); BYTES]);
    }

    /// The depth grows by what a call takes more, and nothing of one call counts for the next.
    #[test]
    fn depths_are_those_of_the_call() {
        let mut stack = PaintedStack::new();
        let none = stack.depth_of(|| ());
        let small = stack.depth_of(fill::<1_000>);
        let large = stack.depth_of(fill::<100_000>);
        assert!(none < 100, "{none}");
        assert!((1_000..1_000 + 1_000 + none).contains(&small), "{small}");
        assert!((100_000..2 * 100_000 + 1_000).contains(&large), "{large}");
        assert_eq!(stack.depth_of(fill::<1_000>), small);
        assert_eq!(stack.depth_of(|| ()), none);
    }
}
