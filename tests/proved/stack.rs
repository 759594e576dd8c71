//! Calls on a stack of their own (x86-64).

use std::hint::black_box;

pub struct Stack {
    bytes: Vec<u8>,
    fill: u8,
}

extern "C" fn run(call: *mut &mut dyn FnMut()) {
    unsafe { (*call)() }
}

impl Stack {
    pub fn new(size: usize) -> Stack {
        Stack { bytes: vec![0; size], fill: 0 }
    }

    /// Its first bytes in use end here.
    fn top(&mut self) -> usize {
        (self.bytes.as_mut_ptr() as usize + self.bytes.len()) & !15
    }

    /// `call` finds every byte of the stack below it filled.
    pub fn run<R>(&mut self, fill: u8, call: impl FnOnce() -> R) -> R {
        self.bytes.fill(fill);
        self.fill = fill;
        let (mut call, mut result) = (Some(call), None);
        let mut call = || result = call.take().map(|call| call());
        let mut call: &mut dyn FnMut() = &mut call;
        unsafe {
            std::arch::asm!(
                "mov r12, rsp",
                "mov rsp, {top}",
                "call {run}",
                "mov rsp, r12",
                top = in(reg) self.top(),
                run = in(reg) run as extern "C" fn(*mut &mut dyn FnMut()),
                in("rdi") &mut call as *mut &mut dyn FnMut(),
                out("r12") _,
                clobber_abi("C"),
            );
        }
        result.unwrap()
    }

    /// Bytes that the last call used: those below them are as they were filled.
    pub fn used(&mut self) -> usize {
        let untouched = black_box(&self.bytes).iter().take_while(|&&byte| byte == self.fill).count();
        self.top() - self.bytes.as_ptr() as usize - untouched
    }
}
