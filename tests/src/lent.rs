//! Memory that is lent to a call. A slice lies between guard cells on one side and a page that may not be touched on the other, so that a write
//! outside it is seen after the call, and any access past the fenced end stops the run at once.

use std::ffi::c_void;
use std::sync::atomic::{AtomicU64, Ordering};

const PAGE: usize = 4_096;

extern "C" {
    fn mmap(at: *mut c_void, bytes: usize, access: i32, flags: i32, file: i32, offset: i64) -> *mut c_void;
    fn mprotect(at: *mut c_void, bytes: usize, access: i32) -> i32;
    fn signal(number: i32, handler: extern "C" fn(i32)) -> usize;
    fn write(file: i32, bytes: *const c_void, count: usize) -> isize;
    fn _exit(status: i32) -> !;
}

const NO_ACCESS: i32 = 0;
const READ_AND_WRITE: i32 = 1 | 2;
const PRIVATE_AND_ANONYMOUS: i32 = 2 | 0x20;
const SEGMENTATION_FAULT: i32 = 11;
const BUS_ERROR: i32 = 7;

/// The number of the call that runs, for the message of a fault.
static CALL: AtomicU64 = AtomicU64::new(0);

pub fn note_call(number: u64) {
    CALL.store(number, Ordering::Relaxed);
}

/// Says which call touched a fenced page, and ends the run.
extern "C" fn on_fault(_: i32) {
    let mut text = *b"FAILED: call 00000000000000000000 touched memory that was not lent; run again with the same seed and --show and this number\n";
    let mut number = CALL.load(Ordering::Relaxed);
    for digit in text[13..33].iter_mut().rev() {
        *digit = b'0' + (number % 10) as u8;
        number /= 10;
    }
    unsafe {
        write(2, text.as_ptr().cast(), text.len());
        _exit(1)
    }
}

pub fn catch_faults() {
    unsafe {
        signal(SEGMENTATION_FAULT, on_fault);
        signal(BUS_ERROR, on_fault);
    }
}

/// A cell of a table or a byte of a text.
pub trait Cell: Copy + PartialEq {
    /// What lies beside a lent slice at a place of its arena.
    fn guard(place: usize) -> Self;
}

impl Cell for i64 {
    fn guard(place: usize) -> i64 {
        0x5afe_c311_0000_0000_u64.wrapping_add((place as u64).wrapping_mul(0x0001_0001_0003)) as i64
    }
}

impl Cell for u8 {
    fn guard(place: usize) -> u8 {
        0x80 | (place % 101) as u8
    }
}

/// Pages between two fences.
pub struct Arena<T> {
    first: *mut T,
    cells: usize,
}

/// At which fence a slice lies.
#[derive(Clone, Copy)]
pub enum Fence {
    Before,
    After,
}

/// A slice of an arena, lent for a call.
#[derive(Clone, Copy)]
pub struct Lent<T> {
    pub first: *mut T,
    pub len: usize,
}

impl<T: Cell> Arena<T> {
    const GUARDS: usize = 768 / size_of::<T>();

    /// An arena with room for a slice of so many cells and its guard cells.
    pub fn new(cells: usize) -> Arena<T> {
        let bytes = ((cells + Self::GUARDS) * size_of::<T>()).div_ceil(PAGE) * PAGE;
        unsafe {
            let start = mmap(std::ptr::null_mut(), bytes + 2 * PAGE, READ_AND_WRITE, PRIVATE_AND_ANONYMOUS, -1, 0).cast::<u8>();
            assert!(start as isize != -1, "no memory for an arena");
            assert_eq!(mprotect(start.cast(), PAGE, NO_ACCESS), 0);
            assert_eq!(mprotect(start.add(PAGE + bytes).cast(), PAGE, NO_ACCESS), 0);
            Arena { first: start.add(PAGE).cast(), cells: bytes / size_of::<T>() }
        }
    }

    fn cells(&mut self) -> &mut [T] {
        unsafe { std::slice::from_raw_parts_mut(self.first, self.cells) }
    }

    fn start_of(&self, len: usize, fence: Fence) -> usize {
        match fence {
            Fence::Before => 0,
            Fence::After => self.cells - len,
        }
    }

    /// The places of the guard cells, which lie on the side away from the fence.
    fn guards(&self, len: usize, fence: Fence) -> std::ops::Range<usize> {
        match fence {
            Fence::Before => len..len + Self::GUARDS,
            Fence::After => self.cells - len - Self::GUARDS..self.cells - len,
        }
    }

    pub fn lend(&mut self, contents: &[T], fence: Fence) -> Lent<T> {
        let len = contents.len();
        assert!(len + Self::GUARDS <= self.cells, "the arena is too small");
        let start = self.start_of(len, fence);
        let guards = self.guards(len, fence);
        let cells = self.cells();
        cells[start..start + len].copy_from_slice(contents);
        for place in guards {
            cells[place] = T::guard(place);
        }
        Lent { first: self.first.wrapping_add(start), len }
    }

    /// Takes the slice back: its cells, and whether the guard cells are as they were.
    pub fn take_back(&mut self, len: usize, fence: Fence) -> (&[T], bool) {
        let start = self.start_of(len, fence);
        let guards = self.guards(len, fence);
        let cells = self.cells();
        let kept = guards.clone().all(|place| cells[place] == T::guard(place));
        (&cells[start..start + len], kept)
    }
}
