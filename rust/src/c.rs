//! The C interface: the functions that `include/jilgyemot.h` declares, and a safe
//! call of each. All unsafe code of the package stands here.
//!
//! The safe calls answer with the C interface's six numbers:
//!
//! | Answer | Numbers |
//! |---|---|
//! | accepted | 0, length, files taken in, 0, 0, 0 |
//! | no region | 1, 0, 0, 0, 0, 0 |
//! | refused | 2, number, file, line, second file, second line |
//!
//! [`Answer::from_numbers`](crate::Answer::from_numbers) reads them. What is `None` is
//! handed on as a null pointer of length 0, and is the same to a call as an empty slice.
//!
//! # Safety
//!
//! This holds for the C functions alone. A pointer is valid for as many bytes as the length
//! behind it says, to read or, at `out` and `work`, to write; it may be null where that
//! length is 0. `answer` is valid for writing six numbers. Output, work and answer overlap
//! neither each other nor what is read. The bytes may be any.

use core::ptr::{null, null_mut};

/// The six numbers that a call answers with.
pub type Numbers = [u64; 6];

/// Bytes that a call reads.
pub type Read<'a> = Option<&'a [u8]>;

/// A buffer that is lent to a call.
pub type Lent<'a> = Option<&'a mut [u8]>;

#[rustfmt::skip]
#[link(name = "jilgyemot", kind = "static", modifiers = "-bundle")]
unsafe extern "C" {
    /// The C function below [`scan`].
    ///
    /// # Safety
    ///
    /// The pointers are as the [module](self#safety) says.
    pub fn jilgyemot_scan(
        text: *const u8, text_length: usize,
        out: *mut u8, out_length: usize,
        answer: *mut u64,
    );

    /// The C function below [`fill`].
    ///
    /// # Safety
    ///
    /// The pointers are as the [module](self#safety) says.
    pub fn jilgyemot_fill(
        index: *const u8, index_length: usize,
        contents: *const u8, contents_length: usize,
        host_name: *const u8, host_name_length: usize,
        host_text: *const u8, host_text_length: usize,
        limit: u64, allowance: u32,
        out: *mut u8, out_length: usize,
        work: *mut u8, work_length: usize,
        answer: *mut u64,
    );

    /// The C function below [`assemble`].
    ///
    /// # Safety
    ///
    /// The pointers are as the [module](self#safety) says.
    pub fn jilgyemot_assemble(
        index: *const u8, index_length: usize,
        contents: *const u8, contents_length: usize,
        list: *const u8, list_length: usize,
        url: *const u8, url_length: usize,
        limit: u64,
        out: *mut u8, out_length: usize,
        work: *mut u8, work_length: usize,
        answer: *mut u64,
    );

    /// The C function below [`book`].
    ///
    /// # Safety
    ///
    /// The pointers are as the [module](self#safety) says.
    pub fn jilgyemot_book(
        index: *const u8, index_length: usize,
        contents: *const u8, contents_length: usize,
        list: *const u8, list_length: usize,
        url: *const u8, url_length: usize,
        limit: u64, allowance: u32,
        out: *mut u8, out_length: usize,
        work: *mut u8, work_length: usize,
        answer: *mut u64,
    );
}

// SAFETY of each call: a pointer is valid for the length passed with it, or null with
// length 0; the answer has room for six numbers; what is written is borrowed alone, so
// it overlaps nothing. The functions ask for no more.

/// A scan of a text.
pub fn scan(text: Read, out: Lent, answer: &mut Numbers) {
    let (text, out) = (read(text), lent(out));
    unsafe { jilgyemot_scan(text.0, text.1, out.0, out.1, answer.as_mut_ptr()) }
}

/// A fill. The parts are index, contents, the host's name and its text.
#[rustfmt::skip]
pub fn fill(
    parts: [Read; 4],
    limit: u64,
    allowance: u32,
    out: Lent,
    work: Lent,
    answer: &mut Numbers,
) {
    let [index, contents, name, text] = parts.map(read);
    let (out, work) = (lent(out), lent(work));
    unsafe {
        jilgyemot_fill(
            index.0, index.1,
            contents.0, contents.1,
            name.0, name.1,
            text.0, text.1,
            limit, allowance,
            out.0, out.1,
            work.0, work.1,
            answer.as_mut_ptr(),
        )
    }
}

/// An assembly. The parts are index, contents, the member list and the URL.
#[rustfmt::skip]
pub fn assemble(parts: [Read; 4], limit: u64, out: Lent, work: Lent, answer: &mut Numbers) {
    let [index, contents, list, url] = parts.map(read);
    let (out, work) = (lent(out), lent(work));
    unsafe {
        jilgyemot_assemble(
            index.0, index.1,
            contents.0, contents.1,
            list.0, list.1,
            url.0, url.1,
            limit,
            out.0, out.1,
            work.0, work.1,
            answer.as_mut_ptr(),
        )
    }
}

/// A book. The parts are index, contents, the member list and the URL.
#[rustfmt::skip]
pub fn book(
    parts: [Read; 4],
    limit: u64,
    allowance: u32,
    out: Lent,
    work: Lent,
    answer: &mut Numbers,
) {
    let [index, contents, list, url] = parts.map(read);
    let (out, work) = (lent(out), lent(work));
    unsafe {
        jilgyemot_book(
            index.0, index.1,
            contents.0, contents.1,
            list.0, list.1,
            url.0, url.1,
            limit, allowance,
            out.0, out.1,
            work.0, work.1,
            answer.as_mut_ptr(),
        )
    }
}

fn read(bytes: Read) -> (*const u8, usize) {
    bytes.map_or((null(), 0), |bytes| (bytes.as_ptr(), bytes.len()))
}

fn lent(bytes: Lent) -> (*mut u8, usize) {
    bytes.map_or((null_mut(), 0), |bytes| (bytes.as_mut_ptr(), bytes.len()))
}
