//! The product's entries, declared from include/mortarleaf.h.

use crate::reply::{ControllerReply, Reply};
use crate::writing::Counts;

extern "C" {
    fn mortarleaf_read_context(bytes: *const u8, size: usize) -> Reply;
    fn mortarleaf_read_specification(bytes: *const u8, size: usize) -> Reply;
    fn mortarleaf_read_controller(
        bytes: *const u8,
        size: usize,
        next: *mut u16,
        count: usize,
    ) -> ControllerReply;
    fn mortarleaf_write_controller(
        u: u32,
        v: u32,
        states: u32,
        next: *const u16,
        count: usize,
        out: *mut u8,
        size: usize,
        start: usize,
    ) -> Reply;
    fn mortarleaf_check(
        context: *const u8,
        context_length: usize,
        specification: *const u8,
        specification_length: usize,
        controller: *const u8,
        controller_length: usize,
        sets: *mut u64,
        sets_length: usize,
    ) -> Reply;
    fn mortarleaf_solve(
        mode: u32,
        context: *const u8,
        context_length: usize,
        specification: *const u8,
        specification_length: usize,
        sets: *mut u64,
        sets_length: usize,
        next: *mut u16,
        next_length: usize,
    ) -> Reply;
}

// The header asks for pointers that are aligned and not NULL, for counts that are true, and
// that no written buffer overlaps another. Slices keep all of this.

pub fn read_context(bytes: &[u8]) -> Reply {
    unsafe { mortarleaf_read_context(bytes.as_ptr(), bytes.len()) }
}

pub fn read_specification(bytes: &[u8]) -> Reply {
    unsafe { mortarleaf_read_specification(bytes.as_ptr(), bytes.len()) }
}

pub fn read_controller(bytes: &[u8], next: &mut [u16]) -> ControllerReply {
    unsafe {
        mortarleaf_read_controller(bytes.as_ptr(), bytes.len(), next.as_mut_ptr(), next.len())
    }
}

pub fn write(counts: Counts, next: &[u16], out: &mut [u8], start: usize) -> Reply {
    unsafe {
        mortarleaf_write_controller(
            counts.u,
            counts.v,
            counts.states,
            next.as_ptr(),
            next.len(),
            out.as_mut_ptr(),
            out.len(),
            start,
        )
    }
}

pub fn check(context: &[u8], specification: &[u8], controller: &[u8], sets: &mut [u64]) -> Reply {
    unsafe {
        mortarleaf_check(
            context.as_ptr(),
            context.len(),
            specification.as_ptr(),
            specification.len(),
            controller.as_ptr(),
            controller.len(),
            sets.as_mut_ptr(),
            sets.len(),
        )
    }
}

pub fn solve(
    mode: u32,
    context: &[u8],
    specification: &[u8],
    sets: &mut [u64],
    next: &mut [u16],
) -> Reply {
    unsafe {
        mortarleaf_solve(
            mode,
            context.as_ptr(),
            context.len(),
            specification.as_ptr(),
            specification.len(),
            sets.as_mut_ptr(),
            sets.len(),
            next.as_mut_ptr(),
            next.len(),
        )
    }
}
