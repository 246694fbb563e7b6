//! How much stack a call of ours takes. It runs on a stack that we made and marked, and we see how far down the marks are gone.

use crate::cases::built;
use crate::ours::{encode, Width};
use crate::passages::random;
use crate::random::Random;
use crate::stream::Stream;
use std::ffi::{c_int, c_void};

const SIZE: usize = 1 << 20;
const MARK: u8 = 0xA5;
const CASES: usize = 4000;

/// The C library's thread attributes: 56 bytes on x86-64, 64 on Arm.
#[repr(C, align(16))]
struct Attributes([u8; 64]);

extern "C" {
    fn pthread_attr_init(attributes: *mut Attributes) -> c_int;
    fn pthread_attr_setstack(attributes: *mut Attributes, stack: *mut c_void, size: usize) -> c_int;
    fn pthread_create(thread: *mut usize, attributes: *const Attributes, start: extern "C" fn(*mut c_void) -> *mut c_void, task: *mut c_void) -> c_int;
    fn pthread_join(thread: usize, result: *mut *mut c_void) -> c_int;
}

#[repr(C, align(4096))]
struct Page([u8; 4096]);

extern "C" fn start(task: *mut c_void) -> *mut c_void {
    let task = unsafe { &mut *(task as *mut &mut dyn FnMut()) };
    task();
    std::ptr::null_mut()
}

/// How many bytes lie between the stack's top and the deepest mark that the task wiped out.
fn depth(mut task: &mut dyn FnMut()) -> usize {
    let mut stack: Vec<Page> = (0..SIZE / 4096).map(|_| Page([MARK; 4096])).collect();
    let (mut attributes, mut thread) = (Attributes([0; 64]), 0);
    unsafe {
        assert_eq!(pthread_attr_init(&mut attributes), 0);
        assert_eq!(pthread_attr_setstack(&mut attributes, stack.as_mut_ptr().cast(), SIZE), 0);
        assert_eq!(pthread_create(&mut thread, &attributes, start, (&raw mut task).cast()), 0);
        assert_eq!(pthread_join(thread, std::ptr::null_mut()), 0);
    }
    let left = stack.iter().flat_map(|page| &page.0).take_while(|byte| **byte == MARK).count();
    assert!(left > 0, "the stack was too small");
    SIZE - left
}

/// What the task adds to a thread that does nothing. It runs once before, so that the loader has done its own work.
fn taken(task: &mut dyn FnMut()) -> usize {
    task();
    depth(task) - depth(&mut || ())
}

fn reading<S: Width>() -> usize {
    let mut r = Random::new(9);
    let streams: Vec<_> = std::iter::repeat_with(|| Stream::random(&mut r)).filter(|s| s.accepted(S::WIDE)).take(CASES).collect();
    let cases: Vec<_> = streams.iter().map(|s| (s.cookie(), built(s, &mut r))).collect();
    let (mut out, mut scratch, mut answer) = (vec![S::MARK; 8 * 4096], vec![0; 2 * 4096], [0; 4]);
    taken(&mut || {
        let accepted = cases.iter().filter(|(cookie, packet)| S::decode(cookie, packet, &mut out, &mut scratch, &mut answer) == 0);
        assert!(accepted.count() > 0);
    })
}

fn packing() -> usize {
    let mut r = Random::new(9);
    let cases: Vec<_> = (0..CASES).map(|_| random(&mut r)).collect();
    let (mut bytes, mut scratch, mut answer) = (vec![0; 1 << 17], vec![0; 2 * 4096], [0; 4]);
    taken(&mut || {
        let accepted = cases.iter().filter(|p| encode(&p.cookie, &p.settings, &p.passage, &mut bytes, &mut scratch, &mut answer) == 0);
        assert!(accepted.count() > 0);
    })
}

pub fn stack() {
    println!("stack, in bytes, the most of {CASES} random calls: reading i16 {}, i32 {}; packing {}", reading::<i16>(), reading::<i32>(), packing());
}
