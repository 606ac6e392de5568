//! How much stack a call uses: a thread paints its stack below the caller, calls, and looks how deep the paint is gone.

use crate::abi;
use crate::plots::Tables;
use std::hint::black_box;
use std::ptr;

const PAINT: u64 = 0xA5A5_A5A5_A5A5_A5A5;
/// The thread's stack, the part that is painted, and the bytes next to the painting function that are not.
const STACK: usize = 1 << 20;
const DEPTH: usize = 256 << 10;
const MARGIN: usize = 1 << 10;
/// More than the margin: lies between the painting function and the measured call.
const PAD: usize = 2 << 10;

/// The bytes of stack of each call at n stations, all channels with 4 messages.
pub fn uses(n: u32) -> Vec<(&'static str, usize)> {
    let full = Tables::linked(n, 4);
    let image = full.image();
    let place = u64::from(32 + (n - 1) * (64 + 96 * n));
    let (mut stepped, mut resumed) = (full.clone(), full.clone());
    let (mut out, mut row) = (vec![0; abi::image_len(n)], vec![0; abi::row_len(n)]);
    let (a, b) = (&mut stepped.nodes, &mut stepped.channels);
    let nothing = depth_of(|| 0);
    let down = depth_of(|| abi::down(n, 1, 2, a, b).number);
    let up = depth_of(|| abi::up(n, 1, 2, a, b).number);
    let receipt = depth_of(|| abi::receive(n, 1, 2, a, b).number);
    let save = depth_of(|| abi::save(n, &full.nodes, &full.channels, &mut out).number);
    let restore =
        depth_of(|| abi::restore(&image, &mut resumed.nodes, &mut resumed.channels).number);
    let read_node = depth_of(|| abi::read_node(&image, n, place, &mut row).number);
    let quiet = depth_of(|| abi::quiet(n, &full.nodes, &full.channels).number);
    let groups = depth_of(|| abi::groups(n, &full.nodes, &full.channels).number);
    let group_of = depth_of(|| abi::group_of(n, n, &full.nodes, &full.channels).number);
    let depths = [
        ("up", up),
        ("down", down),
        ("receive", receipt),
        ("quiet", quiet),
        ("groups", groups),
        ("group_of", group_of),
        ("save", save),
        ("restore", restore),
        ("read_node", read_node),
    ];
    depths.map(|(name, depth)| (name, depth - nothing)).into()
}

/// The depth below the painting function that a call reaches, on a thread of its own.
fn depth_of(mut call: impl FnMut() -> u32 + Send) -> usize {
    std::thread::scope(|scope| {
        let thread = std::thread::Builder::new().stack_size(STACK);
        let depth = thread.spawn_scoped(scope, move || painted(&mut call));
        depth.expect("a thread").join().expect("a depth")
    })
}

/// Paints, calls, and finds the deepest word without paint.
#[inline(never)]
fn painted(call: &mut dyn FnMut() -> u32) -> usize {
    let here = black_box(0u64);
    let top = &raw const here as usize & !7;
    for at in (top - DEPTH..top - MARGIN).step_by(8) {
        // SAFETY: inside this thread's stack, which is larger, and below every frame in use.
        unsafe { ptr::write_volatile(at as *mut u64, PAINT) };
    }
    assert_eq!(padded(call), 0, "an accepted call");
    let is_painted = |at: &usize| {
        // SAFETY: as above.
        unsafe { ptr::read_volatile(*at as *const u64) == PAINT }
    };
    let gone = (top - DEPTH..top).step_by(8).find(|at| !is_painted(at));
    top - gone.unwrap_or(top)
}

/// Makes the call below the margin.
#[inline(never)]
fn padded(call: &mut dyn FnMut() -> u32) -> u32 {
    let pad = black_box([0u8; PAD]);
    let number = call();
    black_box(pad);
    number
}
