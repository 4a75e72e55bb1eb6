//! How many bytes of stack a call takes. The call runs on a thread whose stack is a buffer of ours,
//! painted before; what is no longer painted afterwards was used.

use std::alloc::{alloc, dealloc, handle_alloc_error, Layout};
use std::ffi::c_void;
use std::ptr::{null_mut, NonNull};

/// Room for pthread_attr_t, which has 56 bytes on 64-bit Linux.
#[repr(C, align(16))]
struct Attributes([u8; 64]);

type Start = extern "C" fn(*mut c_void) -> *mut c_void;

extern "C" {
    fn pthread_attr_init(attributes: *mut Attributes) -> i32;
    fn pthread_attr_setstack(attributes: *mut Attributes, low: *mut c_void, size: usize) -> i32;
    fn pthread_attr_setstacksize(attributes: *mut Attributes, size: usize) -> i32;
    fn pthread_attr_destroy(attributes: *mut Attributes) -> i32;
    fn pthread_create(
        thread: *mut usize,
        attributes: *const Attributes,
        start: Start,
        argument: *mut c_void,
    ) -> i32;
    fn pthread_join(thread: usize, answer: *mut *mut c_void) -> i32;
}

/// A call to be run on another thread.
type Call<'a> = &'a mut dyn FnMut();

extern "C" fn start(call: *mut c_void) -> *mut c_void {
    // Sound: `run` hands over a pointer to a Call and waits for the thread's end.
    let call = unsafe { &mut *(call as *mut Call) };
    call();
    null_mut()
}

/// Runs a call on a thread of its own and waits for its end; `stack` says which stack it has.
fn run(mut call: Call, stack: impl FnOnce(*mut Attributes) -> i32) {
    let mut attributes = Attributes([0; 64]);
    let mut thread = 0;
    let argument = &mut call as *mut Call as *mut c_void;
    // Sound: every pointer is to a local that lives until the thread has ended.
    unsafe {
        assert_eq!(pthread_attr_init(&mut attributes), 0, "pthread_attr_init");
        assert_eq!(stack(&mut attributes), 0, "the thread's stack");
        assert_eq!(pthread_create(&mut thread, &attributes, start, argument), 0, "pthread_create");
        assert_eq!(pthread_join(thread, null_mut()), 0, "pthread_join");
        assert_eq!(pthread_attr_destroy(&mut attributes), 0, "pthread_attr_destroy");
    }
}

/// Runs a call on a thread with a stack of so many bytes. Where they are not enough, the program ends
/// by a signal.
pub fn within(size: usize, call: Call) {
    // Sound: `run` lends attributes that are initialized.
    run(call, |attributes| unsafe { pthread_attr_setstacksize(attributes, size) });
}

/// A painted stack.
pub struct Painted {
    low: NonNull<u64>,
}

const SIZE: usize = 1 << 20;
const LAYOUT: Layout = match Layout::from_size_align(SIZE, 1 << 12) {
    Ok(layout) => layout,
    Err(_) => panic!("a stack's layout"),
};
const PAINT: u64 = 0xa5c3_a5c3_a5c3_a5c3;
const PAGE: [u64; 512] = [PAINT; 512];

impl Painted {
    pub fn new() -> Painted {
        // Sound: the layout is not empty.
        let low = NonNull::new(unsafe { alloc(LAYOUT) } as *mut u64);
        let mut stack = Painted { low: low.unwrap_or_else(|| handle_alloc_error(LAYOUT)) };
        stack.words().fill(PAINT);
        stack
    }

    /// Sound while no thread runs on the stack: all words are initialized by `new`.
    fn words(&mut self) -> &mut [u64] {
        unsafe { std::slice::from_raw_parts_mut(self.low.as_ptr(), SIZE / 8) }
    }

    /// Bytes that a call uses, those of the thread's own start among them: from the lowest one that is
    /// written up to the stack's end.
    pub fn used(&mut self, call: Call) -> usize {
        let low = self.low.as_ptr() as *mut c_void;
        // Sound: the buffer is used by this thread alone, and as long as it was allocated.
        run(call, |attributes| unsafe { pthread_attr_setstack(attributes, low, SIZE) });
        let words = self.words();
        // Page by page first, which is faster.
        let pages = words.chunks(PAGE.len()).take_while(|page| *page == PAGE).count();
        let rest = words[PAGE.len() * pages..].iter().take_while(|word| **word == PAINT).count();
        let free = PAGE.len() * pages + rest;
        words[free..].fill(PAINT);
        SIZE - 8 * free
    }
}

impl Default for Painted {
    fn default() -> Painted {
        Painted::new()
    }
}

impl Drop for Painted {
    fn drop(&mut self) {
        // Sound: allocated with the same layout.
        unsafe { dealloc(self.low.as_ptr() as *mut u8, LAYOUT) }
    }
}
