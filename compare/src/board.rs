//! The library's C interface, as include/fabrwent.h has it: a slice is a pointer and a length.

use crate::walk::Answer;

#[repr(C)]
#[derive(Clone, Copy, Debug, PartialEq)]
pub struct Loaded {
    pub number: u32,
    pub place: u64,
}

#[repr(C)]
#[derive(Clone, Copy, Debug, PartialEq)]
pub struct Ran {
    pub number: u32,
    pub place: u32,
    pub steps: u32,
    pub listed: u32,
    pub due_known: u32,
    pub due: u64,
}

#[repr(C)]
#[derive(Clone, Copy, Debug, PartialEq)]
pub struct Compared {
    pub number: u32,
    pub place: u32,
    pub alike: u32,
}

#[repr(C)]
#[derive(Clone, Copy, Debug, PartialEq)]
pub struct Seen {
    pub number: u32,
    pub place: u32,
    pub due_known: u32,
    pub moment: u64,
    pub due: u64,
}

#[repr(C)]
#[derive(Clone, Copy, Debug, PartialEq)]
pub struct Printed {
    pub number: u32,
    pub place: u32,
    pub pages: u64,
}

extern "C" {
    fn fabrwent_load(listing: *const u8, listing_length: usize, table: *mut u32, table_length: usize) -> Loaded;
    fn fabrwent_start(
        table: *const u32,
        table_length: usize,
        machine: *mut u32,
        machine_length: usize,
        out_numbers: *mut u32,
        out_numbers_length: usize,
        out_values: *mut u32,
        out_values_length: usize,
        allowance: u32,
    ) -> Ran;
    fn fabrwent_instant(
        table: *const u32,
        table_length: usize,
        machine: *mut u32,
        machine_length: usize,
        t: u64,
        in_numbers: *const u32,
        in_numbers_length: usize,
        in_values: *const u32,
        in_values_length: usize,
        out_numbers: *mut u32,
        out_numbers_length: usize,
        out_values: *mut u32,
        out_values_length: usize,
        allowance: u32,
    ) -> Ran;
    fn fabrwent_alike(
        table: *const u32,
        table_length: usize,
        a: *const u32,
        a_length: usize,
        b: *const u32,
        b_length: usize,
    ) -> Compared;
    fn fabrwent_look(table: *const u32, table_length: usize, machine: *const u32, machine_length: usize) -> Seen;
    fn fabrwent_page(
        moments: *const u64,
        moments_length: usize,
        outputs: *const u32,
        outputs_length: usize,
        values: *const u32,
        values_length: usize,
        page: u64,
        memory: *mut u8,
        memory_length: usize,
    ) -> Printed;
}

/// The two lent lists of outputs.
#[derive(Clone, Debug, PartialEq)]
pub struct Outputs {
    pub numbers: Vec<u32>,
    pub values: Vec<u32>,
}

pub fn load(listing: &[u8], table: &mut [u32]) -> Loaded {
    // SAFETY: the pointers and lengths are those of two slices that live through the call.
    unsafe { fabrwent_load(listing.as_ptr(), listing.len(), table.as_mut_ptr(), table.len()) }
}

pub fn start(table: &[u32], machine: &mut [u32], out: &mut Outputs, allowance: u32) -> Ran {
    let (numbers, values) = (&mut out.numbers, &mut out.values);
    // SAFETY: as above; the four memories are distinct.
    unsafe {
        fabrwent_start(
            table.as_ptr(),
            table.len(),
            machine.as_mut_ptr(),
            machine.len(),
            numbers.as_mut_ptr(),
            numbers.len(),
            values.as_mut_ptr(),
            values.len(),
            allowance,
        )
    }
}

/// `inputs`: the two lists of inputs, numbers and values.
pub fn instant(
    table: &[u32],
    machine: &mut [u32],
    t: u64,
    inputs: (&[u32], &[u32]),
    out: &mut Outputs,
    allowance: u32,
) -> Ran {
    let (numbers, values) = (&mut out.numbers, &mut out.values);
    // SAFETY: as above; the six memories are distinct.
    unsafe {
        fabrwent_instant(
            table.as_ptr(),
            table.len(),
            machine.as_mut_ptr(),
            machine.len(),
            t,
            inputs.0.as_ptr(),
            inputs.0.len(),
            inputs.1.as_ptr(),
            inputs.1.len(),
            numbers.as_mut_ptr(),
            numbers.len(),
            values.as_mut_ptr(),
            values.len(),
            allowance,
        )
    }
}

pub fn alike(table: &[u32], a: &[u32], b: &[u32]) -> Compared {
    // SAFETY: as above; the three memories are only read.
    unsafe { fabrwent_alike(table.as_ptr(), table.len(), a.as_ptr(), a.len(), b.as_ptr(), b.len()) }
}

pub fn look(table: &[u32], machine: &[u32]) -> Seen {
    // SAFETY: as above; both memories are only read.
    unsafe { fabrwent_look(table.as_ptr(), table.len(), machine.as_ptr(), machine.len()) }
}

pub fn page(moments: &[u64], outputs: &[u32], values: &[u32], page: u64, memory: &mut [u8]) -> Printed {
    // SAFETY: as above; the three lists are only read, and the memory is none of them.
    unsafe {
        fabrwent_page(
            moments.as_ptr(),
            moments.len(),
            outputs.as_ptr(),
            outputs.len(),
            values.as_ptr(),
            values.len(),
            page,
            memory.as_mut_ptr(),
            memory.len(),
        )
    }
}

/// What a call must return for the model's answer.
pub fn expected(answer: &Answer) -> Ran {
    Ran {
        number: answer.number,
        place: 0,
        steps: answer.steps,
        listed: answer.outputs.len() as u32,
        due_known: answer.due.is_some() as u32,
        due: answer.due.unwrap_or(0),
    }
}
