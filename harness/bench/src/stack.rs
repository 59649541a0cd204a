//! How much stack the proved reader takes, seen by what it leaves of a painted stack.

use std::hint::black_box;
use std::mem::MaybeUninit;
use std::thread;

use harness::format::{NUMBERS_PER_TOKEN, Row};
use type_name::ANSWER_LENGTH;

/// More than any call takes.
const PAINTED: usize = 512 * 1024;

/// A thread's, with room for the painting.
const STACK: usize = 4 * PAINTED;

const PAINT: u8 = 0xa5;

/// The most bytes of stack that a call of an entry takes over these rows.
pub fn most<R>(rows: &[Row], read: R) -> usize
where
    R: Fn(&[u8], &mut [u32], &mut [u32]) -> u32 + Send + 'static,
{
    let input = |row: &Row| {
        let tree = vec![0; NUMBERS_PER_TOKEN * row.tokens.len()];
        (row.write(), tree)
    };
    taken(rows.iter().map(input).collect(), move |(file, tree)| {
        read(file, tree, &mut [0; ANSWER_LENGTH]);
    })
}

/// The most bytes of stack that a call takes over these inputs.
pub fn taken<T: Send + 'static>(
    mut inputs: Vec<T>,
    call: impl Fn(&mut T) + Send + 'static,
) -> usize {
    let measuring = thread::Builder::new().stack_size(STACK).spawn(move || {
        let own = touched(|| ());
        let of_input = |input: &mut T| touched(|| call(input));
        inputs.iter_mut().map(of_input).max().unwrap_or(own) - own
    });
    let measured = measuring.expect("a thread").join();
    measured.expect("no input takes more than is painted")
}

/// The bytes that a call changes of the stack below it.
#[inline(never)]
fn touched(call: impl FnOnce()) -> usize {
    paint();
    call();
    changed()
}

#[inline(never)]
fn paint() {
    black_box([PAINT; PAINTED]);
}

#[inline(never)]
fn changed() -> usize {
    let place = MaybeUninit::<[u8; PAINTED]>::uninit();
    let first = black_box(place.as_ptr()).cast::<u8>();
    // SAFETY: the bytes are this frame's. They were never written by it, so they are read as hardware has them, volatile;
    // what is read decides nothing but the figure.
    let byte = |at: usize| unsafe { first.add(at).read_volatile() };
    // A frame of many pages writes zeros into each as it is made, this one too.
    let kept = (0..PAINTED).take_while(|&at| matches!(byte(at), PAINT | 0));
    PAINTED - kept.count()
}
