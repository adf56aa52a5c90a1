//! Words that are lent so that they end where nothing may be touched: behind the last one begin pages without rights. A call
//! that reads or writes there is noted and let through, so that it is a finding with a script like any other and not the end
//! of the run.
//!
//! What is unsafe about this stands here alone. The numbers are those of Linux on machines of 64 bits.
use crate::pool::LENT;
use std::iter::successors;
use std::ptr::null_mut;
use std::sync::atomic::{AtomicUsize, Ordering::SeqCst};
use std::sync::{Mutex, OnceLock};

mod c {
    extern "C" {
        pub fn mmap(at: *mut u8, bytes: usize, rights: i32, flags: i32, file: i32, offset: i64) -> *mut u8;
        pub fn mprotect(at: *mut u8, bytes: usize, rights: i32) -> i32;
        pub fn sigaction(signal: i32, new: *const super::Action, old: *mut super::Action) -> i32;
        pub fn signal(signal: i32, handler: usize) -> usize;
    }
}

const NO_RIGHTS: i32 = 0;
const READ: i32 = 1;
const READ_AND_WRITE: i32 = 1 | 2;
/// Private, with no file, and no memory set aside for what is never used.
const PAGES_ALONE: i32 = 0x02 | 0x20 | 0x4000;
const NO_PAGES: usize = usize::MAX;
const SEGMENTATION_FAULT: i32 = 11;
const DEFAULT_HANDLER: usize = 0;
const WITH_ADDRESS: i32 = 4;

/// A multiple of the size of a page, whichever it is.
const STEP: usize = 1 << 16;
const BEFORE: usize = (LENT * size_of::<u32>()).next_multiple_of(STEP);
/// As far as a link of 32 bits leads if it is followed untested: 2^31 places of 8 words.
const MOST_BEHIND: usize = 1 << 36;

/// The first address behind the lent words, the same for all of them, and how many bytes have no rights from there on.
struct Edge {
    address: usize,
    behind: usize,
}

static EDGE: OnceLock<Edge> = OnceLock::new();
/// The first address behind the edge that the call under way touched, or 0.
static TOUCHED: AtomicUsize = AtomicUsize::new(0);
/// All words end at the same edge, so they are lent to one call at a time.
static TURN: Mutex<()> = Mutex::new(());

/// What a call answered, the words that it left if it changed any, and the first word behind them that it touched, counted from
/// their start.
pub struct Lent {
    pub number: u32,
    pub changed: Option<Vec<u32>>,
    pub touched: Option<usize>,
}

/// Lends a copy of the words to a call.
pub fn lend(words: &[u32], call: impl FnOnce(*mut u32, usize) -> u32) -> Lent {
    assert!(words.len() <= LENT);
    let _turn = TURN.lock().expect("no call panics");
    let edge = EDGE.get_or_init(Edge::new);
    // SAFETY: there is room for LENT words before the edge, and while the turn is ours nobody else uses it.
    let place = unsafe { (edge.address as *mut u32).sub(words.len()) };
    unsafe { place.copy_from_nonoverlapping(words.as_ptr(), words.len()) };
    let number = call(place, words.len());
    // SAFETY: the same words; the call that could write them is over.
    let left = unsafe { std::slice::from_raw_parts(place, words.len()) };
    let changed = (left != words).then(|| left.to_vec());
    let touched = match TOUCHED.swap(0, SeqCst) {
        0 => None,
        at => {
            set_rights(edge.address, edge.behind, NO_RIGHTS);
            Some(words.len() + (at - edge.address) / size_of::<u32>())
        }
    };
    Lent { number, changed, touched }
}

impl Edge {
    /// Makes the pages, fewer of them where the system does not give as many, and sees to faults from here on.
    fn new() -> Edge {
        let tries = successors(Some(MOST_BEHIND), |behind| Some(behind / 2)).take_while(|&behind| behind >= STEP);
        let mut made = tries.map(|behind| (new_pages(BEFORE + behind), behind)).filter(|made| made.0 != NO_PAGES);
        let (start, behind) = made.next().expect("mmap");
        set_rights(start, BEFORE, READ_AND_WRITE);
        let action = Action { handler: on_fault, mask: [0; 16], flags: WITH_ADDRESS, restorer: 0 };
        // SAFETY: the handler takes what WITH_ADDRESS says that it is given.
        let failed = unsafe { c::sigaction(SEGMENTATION_FAULT, &action, null_mut()) };
        assert_eq!(failed, 0, "sigaction");
        Edge { address: start + BEFORE, behind }
    }
}

fn new_pages(bytes: usize) -> usize {
    // SAFETY: wherever the system puts them, nothing else is there.
    unsafe { c::mmap(null_mut(), bytes, NO_RIGHTS, PAGES_ALONE, -1, 0) as usize }
}

fn set_rights(start: usize, bytes: usize, rights: i32) {
    // SAFETY: the pages are those of the edge, and no reference into them is alive.
    let failed = unsafe { c::mprotect(start as *mut u8, bytes, rights) };
    assert_eq!(failed, 0, "mprotect");
}

/// `struct sigaction`.
#[repr(C)]
struct Action {
    handler: extern "C" fn(i32, *const Fault, *mut u8),
    mask: [u64; 16],
    flags: i32,
    restorer: usize,
}

/// The head of `siginfo_t`.
#[repr(C)]
struct Fault {
    signal: i32,
    error: i32,
    code: i32,
    address: usize,
}

/// Behind the edge the pages are opened, and the call goes on: all may be read, and those about the place written. To write
/// others, as a loop that runs on and on would until the memory is full, ends the program; so does a fault of any other kind.
extern "C" fn on_fault(_signal: i32, fault: *const Fault, _state: *mut u8) {
    // SAFETY: the system tells where it was.
    let at = unsafe { (*fault).address };
    let edge = EDGE.get().filter(|edge| (edge.address..edge.address + edge.behind).contains(&at));
    match edge {
        Some(edge) if TOUCHED.swap(at, SeqCst) == 0 => {
            set_rights(edge.address, edge.behind, READ);
            set_rights(edge.address + (at - edge.address) / STEP * STEP, STEP, READ_AND_WRITE);
        }
        // SAFETY: the fault comes again at once, and nothing of ours runs before it.
        _ => unsafe {
            c::signal(SEGMENTATION_FAULT, DEFAULT_HANDLER);
        },
    }
}
