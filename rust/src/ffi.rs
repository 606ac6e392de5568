//! include/election.h, declared again, and each call as a function over slices. Nowhere else is a pointer handed to the library.
//!
//! The comparisons in `tests/` and the benchmarks take this file in by `#[path]`, so it is written once. Simpler than to depend on this
//! crate: it then needs no public module of raw answers, and each of the three keeps its own way to find `libabi.a`. None calls all.
#![allow(dead_code)]

/// What an event answers.
#[repr(C)]
#[derive(Clone, Copy, Debug, PartialEq, Eq)]
pub struct Answer {
    pub number: u32,
    pub fault_at: u32,
    pub fault_with: u32,
    pub rule: u32,
    pub sent_to: u32,
    pub sent: u32,
    pub adopted_from: u32,
    pub level_tau: u32,
    pub level_originator: u32,
    pub level_bit: u32,
}

/// What a check, a fresh plot, a resume or a sketch read answers.
#[repr(C)]
#[derive(Clone, Copy, Debug, PartialEq, Eq)]
pub struct Checked {
    pub number: u32,
    pub fault_at: u32,
    pub fault_with: u32,
}

/// What a save or a drawing answers.
#[repr(C)]
#[derive(Clone, Copy, Debug, PartialEq, Eq)]
pub struct Saved {
    pub number: u32,
    pub fault_at: u32,
    pub fault_with: u32,
    pub size: u64,
}

/// What a list of histories answers.
#[repr(C)]
#[derive(Clone, Copy, Debug, PartialEq, Eq)]
pub struct Listed {
    pub number: u32,
    pub fault_at: u32,
    pub fault_with: u32,
    pub histories: u32,
    pub size: u64,
}

/// What a look at one station answers.
#[repr(C)]
#[derive(Clone, Copy, Debug, PartialEq, Eq)]
pub struct Station {
    pub number: u32,
    pub fault_at: u32,
    pub fault_with: u32,
    pub clock: u32,
    pub linked: u32,
    pub forming: u32,
}

/// What a question with one word as its answer answers.
#[repr(C)]
#[derive(Clone, Copy, Debug, PartialEq, Eq)]
pub struct Value {
    pub number: u32,
    pub fault_at: u32,
    pub fault_with: u32,
    pub value: u32,
}

/// What a question for one station's group answers.
#[repr(C)]
#[derive(Clone, Copy, Debug, PartialEq, Eq)]
pub struct Group {
    pub number: u32,
    pub fault_at: u32,
    pub fault_with: u32,
    pub members: u32,
    pub collectors: u32,
    pub collector: u32,
}

/// A height to compare.
#[repr(C)]
#[derive(Clone, Copy, Debug, PartialEq, Eq)]
pub struct Height {
    pub search_time: u32,
    pub originator: u32,
    pub bit: u32,
    pub depth: i32,
    pub election_time: u32,
    pub leader: u32,
    pub station: u32,
}

/// What a comparison of two heights answers.
#[repr(C)]
#[derive(Clone, Copy, Debug, PartialEq, Eq)]
pub struct Comparison {
    pub order: i32,
    pub place: u32,
}

/// The form that up, down and receive share.
type Event = unsafe extern "C" fn(u32, u32, u32, *mut u32, usize, *mut u32, usize) -> Answer;

unsafe extern "C" {
    safe fn election_nodes_len(n: u32) -> usize;
    safe fn election_channels_len(n: u32) -> usize;
    safe fn election_row_len(n: u32) -> usize;
    safe fn election_image_len(n: u32) -> usize;
    safe fn election_drawing_len(n: u32) -> usize;
    safe fn election_histories_len(n: u32, length: u32) -> usize;
    safe fn election_compare(a: Height, b: Height) -> Comparison;
    fn election_fresh(
        n: u32,
        nodes: *mut u32,
        nodes_len: usize,
        channels: *mut u32,
        channels_len: usize,
    ) -> Checked;
    fn election_check(
        n: u32,
        nodes: *const u32,
        nodes_len: usize,
        channels: *const u32,
        channels_len: usize,
    ) -> Checked;
    fn election_up(
        n: u32,
        u: u32,
        v: u32,
        nodes: *mut u32,
        nodes_len: usize,
        channels: *mut u32,
        channels_len: usize,
    ) -> Answer;
    fn election_down(
        n: u32,
        u: u32,
        v: u32,
        nodes: *mut u32,
        nodes_len: usize,
        channels: *mut u32,
        channels_len: usize,
    ) -> Answer;
    fn election_receive(
        n: u32,
        from: u32,
        to: u32,
        nodes: *mut u32,
        nodes_len: usize,
        channels: *mut u32,
        channels_len: usize,
    ) -> Answer;
    fn election_save(
        n: u32,
        nodes: *const u32,
        nodes_len: usize,
        channels: *const u32,
        channels_len: usize,
        out: *mut u8,
        out_len: usize,
    ) -> Saved;
    fn election_draw(
        n: u32,
        nodes: *const u32,
        nodes_len: usize,
        channels: *const u32,
        channels_len: usize,
        out: *mut u8,
        out_len: usize,
    ) -> Saved;
    fn election_histories(n: u32, length: u32, out: *mut u8, out_len: usize) -> Listed;
    fn election_sketch_stations(text: *const u8, text_len: usize) -> u32;
    fn election_read_sketch(
        text: *const u8,
        text_len: usize,
        nodes: *mut u32,
        nodes_len: usize,
        channels: *mut u32,
        channels_len: usize,
    ) -> Checked;
    fn election_restore(
        image: *const u8,
        image_len: usize,
        nodes: *mut u32,
        nodes_len: usize,
        channels: *mut u32,
        channels_len: usize,
    ) -> Checked;
    fn election_read_node(
        image: *const u8,
        image_len: usize,
        k: u32,
        place: u64,
        row: *mut u32,
        row_len: usize,
    ) -> Station;
    fn election_image_stations(image: *const u8, image_len: usize) -> Value;
    fn election_quiet(
        n: u32,
        nodes: *const u32,
        nodes_len: usize,
        channels: *const u32,
        channels_len: usize,
    ) -> Value;
    fn election_groups(
        n: u32,
        nodes: *const u32,
        nodes_len: usize,
        channels: *const u32,
        channels_len: usize,
    ) -> Value;
    fn election_group_of(
        n: u32,
        u: u32,
        nodes: *const u32,
        nodes_len: usize,
        channels: *const u32,
        channels_len: usize,
    ) -> Group;
}

// Every `unsafe` below: the calls have no precondition but valid memory, and a slice is valid for its length; a `&mut` overlaps nothing.

/// The words of the stations' table.
pub fn nodes_len(n: u32) -> usize {
    election_nodes_len(n)
}

/// The words of the channels' table.
pub fn channels_len(n: u32) -> usize {
    election_channels_len(n)
}

/// The words of a row of heights.
pub fn row_len(n: u32) -> usize {
    election_row_len(n)
}

/// The bytes that hold every image.
pub fn image_len(n: u32) -> usize {
    election_image_len(n)
}

/// The bytes that hold every drawing.
pub fn drawing_len(n: u32) -> usize {
    election_drawing_len(n)
}

/// The bytes of a list of histories.
pub fn histories_len(n: u32, length: u32) -> usize {
    election_histories_len(n, length)
}

/// Which height is the larger, and where they part.
pub fn compare(a: Height, b: Height) -> Comparison {
    election_compare(a, b)
}

/// The fresh plot.
pub fn fresh(n: u32, nodes: &mut [u32], channels: &mut [u32]) -> Checked {
    let (a, b) = (nodes.as_mut_ptr(), channels.as_mut_ptr());
    unsafe { election_fresh(n, a, nodes.len(), b, channels.len()) }
}

/// Refusals 1, 2 and 18.
pub fn check(n: u32, nodes: &[u32], channels: &[u32]) -> Checked {
    let (a, b) = (nodes.as_ptr(), channels.as_ptr());
    unsafe { election_check(n, a, nodes.len(), b, channels.len()) }
}

/// Channel u to v goes up.
#[inline]
pub fn up(n: u32, u: u32, v: u32, nodes: &mut [u32], channels: &mut [u32]) -> Answer {
    event(election_up, n, u, v, nodes, channels)
}

/// Channel u to v goes down.
#[inline]
pub fn down(n: u32, u: u32, v: u32, nodes: &mut [u32], channels: &mut [u32]) -> Answer {
    event(election_down, n, u, v, nodes, channels)
}

/// The first message of channel `from` to `to` is received.
#[inline]
pub fn receive(n: u32, from: u32, to: u32, nodes: &mut [u32], channels: &mut [u32]) -> Answer {
    event(election_receive, n, from, to, nodes, channels)
}

/// One of the three events.
fn event(f: Event, n: u32, u: u32, v: u32, nodes: &mut [u32], channels: &mut [u32]) -> Answer {
    let (a, b) = (nodes.as_mut_ptr(), channels.as_mut_ptr());
    unsafe { f(n, u, v, a, nodes.len(), b, channels.len()) }
}

/// The image goes to the front of `out`.
#[inline]
pub fn save(n: u32, nodes: &[u32], channels: &[u32], out: &mut [u8]) -> Saved {
    let (a, b, room) = (nodes.as_ptr(), channels.as_ptr(), out.len());
    unsafe { election_save(n, a, nodes.len(), b, channels.len(), out.as_mut_ptr(), room) }
}

/// The drawing goes to the front of `out`.
pub fn draw(n: u32, nodes: &[u32], channels: &[u32], out: &mut [u8]) -> Saved {
    let (a, b, room) = (nodes.as_ptr(), channels.as_ptr(), out.len());
    unsafe { election_draw(n, a, nodes.len(), b, channels.len(), out.as_mut_ptr(), room) }
}

/// The list of histories goes to the front of `out`.
pub fn histories(n: u32, length: u32, out: &mut [u8]) -> Listed {
    unsafe { election_histories(n, length, out.as_mut_ptr(), out.len()) }
}

/// The number of stations of a sketch; 0 for a text that is none.
pub fn sketch_stations(text: &[u8]) -> u32 {
    unsafe { election_sketch_stations(text.as_ptr(), text.len()) }
}

/// The plot of a sketch.
pub fn read_sketch(text: &[u8], nodes: &mut [u32], channels: &mut [u32]) -> Checked {
    let (a, b, len) = (nodes.as_mut_ptr(), channels.as_mut_ptr(), text.len());
    unsafe { election_read_sketch(text.as_ptr(), len, a, nodes.len(), b, channels.len()) }
}

/// Resumes the plot of an image.
#[inline]
pub fn restore(image: &[u8], nodes: &mut [u32], channels: &mut [u32]) -> Checked {
    let (a, b, len) = (nodes.as_mut_ptr(), channels.as_mut_ptr(), image.len());
    unsafe { election_restore(image.as_ptr(), len, a, nodes.len(), b, channels.len()) }
}

/// Looks at one station of an image.
#[inline]
pub fn read_node(image: &[u8], k: u32, place: u64, row: &mut [u32]) -> Station {
    let (len, row_len) = (image.len(), row.len());
    unsafe { election_read_node(image.as_ptr(), len, k, place, row.as_mut_ptr(), row_len) }
}

/// The number of stations in an image's header.
pub fn image_stations(image: &[u8]) -> Value {
    unsafe { election_image_stations(image.as_ptr(), image.len()) }
}

/// 1 if the plot is quiet.
pub fn quiet(n: u32, nodes: &[u32], channels: &[u32]) -> Value {
    let (a, b) = (nodes.as_ptr(), channels.as_ptr());
    unsafe { election_quiet(n, a, nodes.len(), b, channels.len()) }
}

/// The lowest stations of all groups.
pub fn groups(n: u32, nodes: &[u32], channels: &[u32]) -> Value {
    let (a, b) = (nodes.as_ptr(), channels.as_ptr());
    unsafe { election_groups(n, a, nodes.len(), b, channels.len()) }
}

/// The group of station u.
pub fn group_of(n: u32, u: u32, nodes: &[u32], channels: &[u32]) -> Group {
    let (a, b) = (nodes.as_ptr(), channels.as_ptr());
    unsafe { election_group_of(n, u, a, nodes.len(), b, channels.len()) }
}
