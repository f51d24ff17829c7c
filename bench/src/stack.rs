//! How deep a call goes into the stack: the part below the caller is painted, the call is made, and what it left of the
//! paint is looked at.
use std::hint::black_box;
use std::thread;

const PAINTED: usize = 256 * 1024;
const PAINT: u8 = 0xA7;

/// What is left free for the frame that paints: it counts as the call's.
const OWN: usize = 512;

/// On a thread of its own, whose stack is mapped as a whole: the paint goes below the stack pointer, where nothing is.
pub fn depth(call: impl FnOnce() + Send) -> usize {
    thread::scope(|scope| {
        let painter = thread::Builder::new().stack_size(4 * PAINTED).spawn_scoped(scope, move || paint_and_call(call));
        painter.and_then(|painter| painter.join().map_err(|_| std::io::ErrorKind::Other.into())).expect("a thread")
    })
}

#[inline(never)]
fn paint_and_call(call: impl FnOnce()) -> usize {
    let mark = 0u8;
    let here = black_box(&raw const mark).cast_mut();
    for below in OWN..PAINTED {
        unsafe { here.sub(below).write_volatile(PAINT) };
    }
    call();
    let untouched = |&below: &usize| unsafe { here.sub(below).read_volatile() } == PAINT;
    PAINTED - (OWN..PAINTED).rev().take_while(untouched).count()
}
