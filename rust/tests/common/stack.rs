//! How many bytes of stack a call takes. A thread's unused stack is painted, the call is made, and the
//! paint left at the far end tells how deep the call went.

use card_model::call::{Call, Calls, JournalCalls};
use std::hint::black_box;
use std::{ptr, thread};

/// The thread's stack, and how much of it is painted.
const STACK: usize = 8 << 20;
const PAINTED: usize = 6 << 20;
const PAINT: u8 = 0xa5;

/// Paints the stack below this frame, runs `call`, and gives the depth of the deepest byte changed.
/// `call` gets a word to write its own depth to: what is above it is not the call's.
#[inline(never)]
fn depth(call: &mut dyn FnMut(&mut usize)) -> usize {
    let mut from = 0;
    let top = ptr::addr_of!(from) as usize - 512;
    // Below the stack pointer, inside this thread's own stack, nothing lives.
    for place in top - PAINTED..top {
        unsafe { ptr::write_volatile(place as *mut u8, PAINT) };
    }
    call(&mut from);
    let deepest =
        (top - PAINTED..top).find(|&place| unsafe { ptr::read_volatile(place as *const u8) } != PAINT);
    from.saturating_sub(deepest.unwrap_or(from))
}

/// Steps down two KiB before the call, so that all of it happens on painted stack.
#[inline(never)]
fn lower(call: &mut dyn FnMut(), from: &mut usize) {
    let room = black_box([0u8; 2048]);
    *from = room.as_ptr() as usize;
    call();
    black_box(&room);
}

pub fn on_a_thread(mut call: impl FnMut() + Send) -> usize {
    thread::scope(|scope| {
        let measured = move || depth(&mut |from| lower(&mut call, from));
        thread::Builder::new().stack_size(STACK).spawn_scoped(scope, measured).unwrap().join().unwrap()
    })
}

/// What a call takes on a copy of the card.
pub fn of_call(side: Calls, card: &[u8], call: Call) -> usize {
    let mut copy = card.to_vec();
    on_a_thread(move || {
        black_box(call.run(&side, &mut copy));
    })
}

/// What a call takes on a copy of the journal.
pub fn of_journal_call(side: JournalCalls, journal: &[u8], call: Call) -> usize {
    let mut copy = journal.to_vec();
    on_a_thread(move || {
        black_box(call.run_on_journal(&side, &mut copy));
    })
}

/// What the panel routine takes.
pub fn of_digits(side: Calls) -> usize {
    on_a_thread(|| {
        black_box((side.digits)(black_box(5_999_999), 6));
    })
}
