//! The simulator behind the parameters of the library's C calls.

use std::slice::{from_raw_parts, from_raw_parts_mut};

/// Checks a file.
///
/// # Safety
/// So many bytes can be read at the pointer.
#[no_mangle]
pub unsafe extern "C" fn reference_check(file: *const u8, file_len: usize) -> u32 {
    simulator::check_code(from_raw_parts(file, file_len))
}

/// Runs a file over a turn list.
///
/// # Safety
/// So many bytes can be read, and for the last four written, at each pointer;
/// no two buffers overlap.
#[no_mangle]
pub unsafe extern "C" fn reference_run(
    file: *const u8,
    file_len: usize,
    turns: *const u8,
    turns_len: usize,
    memory: *mut u8,
    memory_len: usize,
    log: *mut u8,
    log_len: usize,
    report: *mut u8,
    report_len: usize,
    work: *mut u8,
    work_len: usize,
) -> u32 {
    simulator::run(
        from_raw_parts(file, file_len),
        from_raw_parts(turns, turns_len),
        from_raw_parts_mut(memory, memory_len),
        from_raw_parts_mut(log, log_len),
        from_raw_parts_mut(report, report_len),
        from_raw_parts_mut(work, work_len),
    )
}

/// Runs several plans.
///
/// # Safety
/// So many bytes can be read, and for the last five written, at each pointer;
/// no two buffers overlap.
#[no_mangle]
pub unsafe extern "C" fn reference_run_all(
    count: usize,
    files: *const u8,
    files_len: usize,
    lengths: *const u8,
    lengths_len: usize,
    memories: *mut u8,
    memories_len: usize,
    logs: *mut u8,
    logs_len: usize,
    reports: *mut u8,
    reports_len: usize,
    answers: *mut u8,
    answers_len: usize,
    work: *mut u8,
    work_len: usize,
) -> u32 {
    let lent = [
        from_raw_parts_mut(memories, memories_len),
        from_raw_parts_mut(logs, logs_len),
        from_raw_parts_mut(reports, reports_len),
        from_raw_parts_mut(answers, answers_len),
        from_raw_parts_mut(work, work_len),
    ];
    let files = from_raw_parts(files, files_len);
    simulator::run_all(count, files, from_raw_parts(lengths, lengths_len), lent)
}
