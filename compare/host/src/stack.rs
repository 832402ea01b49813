//! How much stack a call takes: it is made on a thread whose stack was painted, and the paint that is left is counted.

use std::ffi::c_void;
use std::ptr;

/// The bytes of the stack that the call is given; its share of them must be far less.
pub const STACK: usize = 1 << 20;

const PAINT: u8 = 0xA5;

/// `pthread_attr_t` of x86-64 Linux.
#[repr(C, align(16))]
struct Attributes([u8; 64]);

extern "C" {
    fn pthread_attr_init(attributes: *mut Attributes) -> i32;
    fn pthread_attr_setstack(attributes: *mut Attributes, stack: *mut c_void, size: usize) -> i32;
    fn pthread_attr_destroy(attributes: *mut Attributes) -> i32;
    fn pthread_create(
        thread: *mut usize,
        attributes: *const Attributes,
        start: extern "C" fn(*mut c_void) -> *mut c_void,
        argument: *mut c_void,
    ) -> i32;
    fn pthread_join(thread: usize, answer: *mut *mut c_void) -> i32;
}

/// The bytes of stack that a call takes, beyond what a thread takes that makes none.
pub fn stack_of(mut call: impl FnMut() + Send) -> usize {
    touched(&mut call).saturating_sub(touched(&mut || ()))
}

/// Runs a call on a painted stack, and counts from the lowest byte that was written.
fn touched(call: &mut (dyn FnMut() + Send)) -> usize {
    let mut memory = vec![PAINT; STACK + 4096];
    let start = memory.as_ptr().align_offset(4096);
    let stack = &mut memory[start..][..STACK];
    run_on(stack, call);
    let untouched = stack.iter().position(|&byte| byte != PAINT).expect("a thread writes to its stack");
    assert!(untouched > 0, "the call took all of {STACK} bytes of stack");
    STACK - untouched
}

fn run_on(stack: &mut [u8], mut call: &mut (dyn FnMut() + Send)) {
    let mut attributes = Attributes([0; 64]);
    let mut thread = 0;
    let argument = ptr::addr_of_mut!(call).cast();
    // SAFETY: the stack is page-aligned and ours until the join, and so is the call; both are used by that thread alone meanwhile.
    unsafe {
        assert_eq!(pthread_attr_init(&mut attributes), 0);
        assert_eq!(pthread_attr_setstack(&mut attributes, stack.as_mut_ptr().cast(), stack.len()), 0);
        assert_eq!(pthread_create(&mut thread, &attributes, make, argument), 0);
        assert_eq!(pthread_join(thread, ptr::null_mut()), 0);
        pthread_attr_destroy(&mut attributes);
    }
}

extern "C" fn make(argument: *mut c_void) -> *mut c_void {
    // SAFETY: `run_on` hands over a call that outlives the thread.
    let call = unsafe { &mut *argument.cast::<&mut (dyn FnMut() + Send)>() };
    call();
    ptr::null_mut()
}
