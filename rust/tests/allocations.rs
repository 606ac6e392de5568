//! Reading a plot allocates nothing, nor does listing histories.
#![cfg(feature = "std")]

use plot_election::{lent, Plot};
use std::alloc::{GlobalAlloc, Layout, System};
use std::cell::Cell;
use std::hint::black_box;

/// The system's allocator, and how often this thread called it.
struct Counting;

thread_local! {
    static CALLS: Cell<usize> = const { Cell::new(0) };
}

// SAFETY: every call goes to the system's allocator as it came.
unsafe impl GlobalAlloc for Counting {
    unsafe fn alloc(&self, layout: Layout) -> *mut u8 {
        CALLS.with(|calls| calls.set(calls.get() + 1));
        unsafe { System.alloc(layout) }
    }

    unsafe fn dealloc(&self, memory: *mut u8, layout: Layout) {
        unsafe { System.dealloc(memory, layout) }
    }
}

#[global_allocator]
static COUNTING: Counting = Counting;

fn allocations(read: impl FnOnce()) -> usize {
    let before = CALLS.get();
    read();
    CALLS.get() - before
}

#[test]
fn none_to_read() {
    let mut plot = Plot::new(6).unwrap();
    for u in 1..6 {
        plot.up(u, u + 1).unwrap();
        plot.up(u + 1, u).unwrap();
    }
    let image = plot.save().unwrap();
    let reading = || {
        for u in 0..=7 {
            let station = plot.station(u);
            assert_eq!(
                station.map(|s| s.heights().count()),
                plot.leader(u).map(|_| 6)
            );
            assert_eq!(plot.waiting(u, 7), 0);
        }
        assert!(plot.first_waiting().is_some() && plot.view().is_linked(1, 2));
        assert_eq!(plot.quiet(), Ok(false));
        assert_eq!(plot.groups().unwrap().iter().count(), 1);
        assert_eq!(plot.group_of(3).unwrap().collectors.count(), 6);
        let saved = plot.read_station(&image, 1, 32).unwrap();
        assert_eq!(Some(saved.station()), plot.station(1));
    };
    assert_eq!(allocations(reading), 0);
    // what does allocate is counted
    assert_eq!(allocations(|| drop(black_box(plot.save()))), 1);
    assert_eq!(allocations(|| drop(black_box(plot.clone()))), 2);
}

#[test]
fn none_to_list() {
    let mut out = [0; lent::histories_len(3, 3)];
    let listing = || {
        let listed = lent::histories(3, 3, &mut out).unwrap();
        assert_eq!(lent::inputs(&out[..listed.bytes]).count(), 312);
        assert!(lent::histories(4, 3, &mut out).is_err());
    };
    assert_eq!(allocations(listing), 0);
}
