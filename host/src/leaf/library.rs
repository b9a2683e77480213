//! The C interface of the leaf functions, as safe functions.

use jilgyemot_host::answer;
use jilgyemot_host::refusals::Input;

pub use jilgyemot_host::answer::Answer;

#[link(name = "leaves", kind = "static")]
unsafe extern "C" {
    fn leaf_step(fence: u64, comment: u64, line: *const u8, line_len: usize, answer: *mut u64);
    fn leaf_drops(within: u64, line: *const u8, line_len: usize, answer: *mut u64);
    fn leaf_shallowest(text: *const u8, text_len: usize, answer: *mut u64);
    fn leaf_moved(target: u64, shallowest: u64, level: u64, answer: *mut u64);
    fn leaf_anchor(
        text: *const u8,
        text_len: usize,
        out: *mut u8,
        out_len: usize,
        answer: *mut u64,
    );
    fn leaf_same(s: *const u8, s_len: usize, t: *const u8, t_len: usize, answer: *mut u64);
    fn leaf_link(line: *const u8, line_len: usize, from: u64, answer: *mut u64);
    fn leaf_parent(name: *const u8, name_len: usize, answer: *mut u64);
    fn leaf_resolve(
        path: *const u8,
        path_len: usize,
        dir: *const u8,
        dir_len: usize,
        out: *mut u8,
        out_len: usize,
        answer: *mut u64,
    );
    fn leaf_resolves(
        path: *const u8,
        path_len: usize,
        dir: *const u8,
        dir_len: usize,
        name: *const u8,
        name_len: usize,
        answer: *mut u64,
    );
    fn leaf_target(target: *const u8, target_len: usize, answer: *mut u64);
    fn leaf_self(
        target: *const u8,
        target_len: usize,
        dir: *const u8,
        dir_len: usize,
        host: *const u8,
        host_len: usize,
        answer: *mut u64,
    );
    fn leaf_url(url: *const u8, url_len: usize, answer: *mut u64);
    fn leaf_blank(text: *const u8, text_len: usize, answer: *mut u64);
    fn leaf_put_heading(
        at: u64,
        level: u64,
        text: *const u8,
        text_len: usize,
        out: *mut u8,
        out_len: usize,
        answer: *mut u64,
    );
    fn leaf_clear(out: *mut u8, out_len: usize, answer: *mut u64);
    fn leaf_region(text: *const u8, text_len: usize, at: u64, line: u64, answer: *mut u64);
    fn leaf_region_lines(text: *const u8, text_len: usize, at: u64, line: u64, answer: *mut u64);
    fn leaf_check_fill(
        index: *const u8,
        index_len: usize,
        contents: *const u8,
        contents_len: usize,
        name: *const u8,
        name_len: usize,
        text: *const u8,
        text_len: usize,
        limit: u64,
        out: u64,
        work: u64,
        answer: *mut u64,
    );
    fn leaf_check_book(
        index: *const u8,
        index_len: usize,
        contents: *const u8,
        contents_len: usize,
        list: *const u8,
        list_len: usize,
        url: *const u8,
        url_len: usize,
        limit: u64,
        out: u64,
        work: u64,
        answer: *mut u64,
    );
}

/// The answer of a function that takes a pointer to its six numbers.
fn answered(call: impl FnOnce(*mut u64)) -> Answer {
    answer::answered(|answer| call(answer.as_mut_ptr()))
}

// SAFETY of each call: a pointer is valid for the length passed with it, the
// answer has its six numbers, and what is written overlaps with nothing else.

pub fn step(fence: u64, comment: u64, line: &[u8]) -> Answer {
    answered(|answer| unsafe { leaf_step(fence, comment, line.as_ptr(), line.len(), answer) })
}

pub fn drops(within: u64, line: &[u8]) -> Answer {
    answered(|answer| unsafe { leaf_drops(within, line.as_ptr(), line.len(), answer) })
}

pub fn shallowest(text: &[u8]) -> Answer {
    answered(|answer| unsafe { leaf_shallowest(text.as_ptr(), text.len(), answer) })
}

pub fn moved(target: u64, shallowest: u64, level: u64) -> Answer {
    answered(|answer| unsafe { leaf_moved(target, shallowest, level, answer) })
}

pub fn anchor(text: &[u8], out: &mut [u8]) -> Answer {
    answered(|answer| unsafe {
        leaf_anchor(text.as_ptr(), text.len(), out.as_mut_ptr(), out.len(), answer);
    })
}

pub fn same_anchor(s: &[u8], t: &[u8]) -> Answer {
    answered(|answer| unsafe { leaf_same(s.as_ptr(), s.len(), t.as_ptr(), t.len(), answer) })
}

pub fn link(line: &[u8], from: u64) -> Answer {
    answered(|answer| unsafe { leaf_link(line.as_ptr(), line.len(), from, answer) })
}

pub fn parent(name: &[u8]) -> Answer {
    answered(|answer| unsafe { leaf_parent(name.as_ptr(), name.len(), answer) })
}

pub fn resolve(path: &[u8], dir: &[u8], out: &mut [u8]) -> Answer {
    answered(|answer| unsafe {
        leaf_resolve(
            path.as_ptr(),
            path.len(),
            dir.as_ptr(),
            dir.len(),
            out.as_mut_ptr(),
            out.len(),
            answer,
        );
    })
}

pub fn resolves(path: &[u8], dir: &[u8], name: &[u8]) -> Answer {
    answered(|answer| unsafe {
        leaf_resolves(
            path.as_ptr(),
            path.len(),
            dir.as_ptr(),
            dir.len(),
            name.as_ptr(),
            name.len(),
            answer,
        );
    })
}

pub fn target(target: &[u8]) -> Answer {
    answered(|answer| unsafe { leaf_target(target.as_ptr(), target.len(), answer) })
}

pub fn self_anchor(target: &[u8], dir: &[u8], host: &[u8]) -> Answer {
    answered(|answer| unsafe {
        leaf_self(
            target.as_ptr(),
            target.len(),
            dir.as_ptr(),
            dir.len(),
            host.as_ptr(),
            host.len(),
            answer,
        );
    })
}

pub fn url(url: &[u8]) -> Answer {
    answered(|answer| unsafe { leaf_url(url.as_ptr(), url.len(), answer) })
}

pub fn blank(text: &[u8]) -> Answer {
    answered(|answer| unsafe { leaf_blank(text.as_ptr(), text.len(), answer) })
}

pub fn put_heading(at: u64, level: u64, text: &[u8], out: &mut [u8]) -> Answer {
    answered(|answer| unsafe {
        leaf_put_heading(at, level, text.as_ptr(), text.len(), out.as_mut_ptr(), out.len(), answer);
    })
}

pub fn clear(out: &mut [u8]) -> Answer {
    answered(|answer| unsafe { leaf_clear(out.as_mut_ptr(), out.len(), answer) })
}

pub fn region(text: &[u8], at: u64, line: u64) -> Answer {
    answered(|answer| unsafe { leaf_region(text.as_ptr(), text.len(), at, line, answer) })
}

pub fn region_lines(text: &[u8], at: u64, line: u64) -> Answer {
    answered(|answer| unsafe { leaf_region_lines(text.as_ptr(), text.len(), at, line, answer) })
}

pub fn check_fill(input: &Input) -> Answer {
    let Input { index, contents, name, text, sizes, .. } = *input;
    answered(|answer| unsafe {
        leaf_check_fill(
            index.as_ptr(),
            index.len(),
            contents.as_ptr(),
            contents.len(),
            name.as_ptr(),
            name.len(),
            text.as_ptr(),
            text.len(),
            sizes.limit,
            sizes.out,
            sizes.work,
            answer,
        );
    })
}

pub fn check_book(input: &Input) -> Answer {
    let Input { index, contents, list, url, sizes, .. } = *input;
    answered(|answer| unsafe {
        leaf_check_book(
            index.as_ptr(),
            index.len(),
            contents.as_ptr(),
            contents.len(),
            list.as_ptr(),
            list.len(),
            url.as_ptr(),
            url.len(),
            sizes.limit,
            sizes.out,
            sizes.work,
            answer,
        );
    })
}
