//! The engine under test, behind its C calls.

use std::ffi::{c_char, c_int, c_void, CString};

type CheckCall = unsafe extern "C" fn(*const u8, usize) -> u32;
type RunCall = unsafe extern "C" fn(
    *const u8,
    usize,
    *const u8,
    usize,
    *mut u8,
    usize,
    *mut u8,
    usize,
    *mut u8,
    usize,
    *mut u8,
    usize,
) -> u32;
type RunAllCall = unsafe extern "C" fn(
    usize,
    *const u8,
    usize,
    *const u8,
    usize,
    *mut u8,
    usize,
    *mut u8,
    usize,
    *mut u8,
    usize,
    *mut u8,
    usize,
    *mut u8,
    usize,
) -> u32;

extern "C" {
    fn twin_check(file: *const u8, file_len: usize) -> u32;
    fn twin_run(
        file: *const u8,
        file_len: usize,
        turns: *const u8,
        turns_len: usize,
        memory: *mut u8,
        memory_len: usize,
        log: *mut u8,
        log_len: usize,
        report: *mut u8,
        report_len: usize,
        work: *mut u8,
        work_len: usize,
    ) -> u32;
    fn twin_run_all(
        count: usize,
        files: *const u8,
        files_len: usize,
        lengths: *const u8,
        lengths_len: usize,
        memories: *mut u8,
        memories_len: usize,
        logs: *mut u8,
        logs_len: usize,
        reports: *mut u8,
        reports_len: usize,
        answers: *mut u8,
        answers_len: usize,
        work: *mut u8,
        work_len: usize,
    ) -> u32;
}

#[cfg(feature = "check")]
extern "C" {
    fn tampermauve_check(file: *const u8, file_len: usize) -> u32;
}

#[cfg(feature = "library")]
extern "C" {
    fn tampermauve_run(
        file: *const u8,
        file_len: usize,
        turns: *const u8,
        turns_len: usize,
        memory: *mut u8,
        memory_len: usize,
        log: *mut u8,
        log_len: usize,
        report: *mut u8,
        report_len: usize,
        work: *mut u8,
        work_len: usize,
    ) -> u32;
    fn tampermauve_run_all(
        count: usize,
        files: *const u8,
        files_len: usize,
        lengths: *const u8,
        lengths_len: usize,
        memories: *mut u8,
        memories_len: usize,
        logs: *mut u8,
        logs_len: usize,
        reports: *mut u8,
        reports_len: usize,
        answers: *mut u8,
        answers_len: usize,
        work: *mut u8,
        work_len: usize,
    ) -> u32;
}

extern "C" {
    fn dlopen(name: *const c_char, flags: c_int) -> *mut c_void;
    fn dlsym(handle: *mut c_void, name: *const c_char) -> *mut c_void;
}

const RTLD_NOW: c_int = 2;

/// A pointer and the length that is told for it.
#[derive(Clone, Copy)]
pub struct Told {
    pub start: *mut u8,
    pub length: usize,
}

/// The calls that run plans.
#[derive(Clone, Copy)]
struct Runs {
    one: RunCall,
    all: RunAllCall,
}

/// An engine's calls. An engine without runs is tested by its check.
#[derive(Clone, Copy)]
pub struct Engine {
    check: CheckCall,
    runs: Option<Runs>,
}

impl Engine {
    /// `library`, `twin`, or the path of a shared object with the twin's calls.
    pub fn named(name: &str) -> Result<Engine, String> {
        match name {
            "twin" => Ok(Engine {
                check: twin_check,
                runs: Some(Runs {
                    one: twin_run,
                    all: twin_run_all,
                }),
            }),
            "library" => library(),
            path => from_object(path),
        }
    }

    pub fn can_run(&self) -> bool {
        self.runs.is_some()
    }

    /// Checks a file.
    pub fn check(&self, file: Told) -> u32 {
        // An engine may read no more than the told bytes, and only those
        // that a refusal has not spared it.
        unsafe { (self.check)(file.start, file.length) }
    }

    /// Runs a file over turns, on memory, log, report and work.
    pub fn run(&self, file: Told, turns: Told, lent: [Told; 4]) -> u32 {
        let runs = self.runs.expect("an engine with runs");
        let [memory, log, report, work] = lent;
        unsafe {
            (runs.one)(
                file.start,
                file.length,
                turns.start,
                turns.length,
                memory.start,
                memory.length,
                log.start,
                log.length,
                report.start,
                report.length,
                work.start,
                work.length,
            )
        }
    }

    /// Runs so many plans, on memories, logs, reports, answers and work.
    pub fn run_all(&self, count: usize, files: Told, lengths: Told, lent: [Told; 5]) -> u32 {
        let runs = self.runs.expect("an engine with runs");
        let [memories, logs, reports, answers, work] = lent;
        unsafe {
            (runs.all)(
                count,
                files.start,
                files.length,
                lengths.start,
                lengths.length,
                memories.start,
                memories.length,
                logs.start,
                logs.length,
                reports.start,
                reports.length,
                answers.start,
                answers.length,
                work.start,
                work.length,
            )
        }
    }
}

#[cfg(feature = "library")]
fn library() -> Result<Engine, String> {
    Ok(Engine {
        check: tampermauve_check,
        runs: Some(Runs {
            one: tampermauve_run,
            all: tampermauve_run_all,
        }),
    })
}

#[cfg(all(feature = "check", not(feature = "library")))]
fn library() -> Result<Engine, String> {
    Ok(Engine {
        check: tampermauve_check,
        runs: None,
    })
}

#[cfg(not(feature = "check"))]
fn library() -> Result<Engine, String> {
    Err("built without the library; see the features of Cargo.toml".to_string())
}

fn from_object(path: &str) -> Result<Engine, String> {
    let name = CString::new(path).map_err(|_| "a zero byte in a path".to_string())?;
    let handle = unsafe { dlopen(name.as_ptr(), RTLD_NOW) };
    if handle.is_null() {
        return Err(format!("{path} is no engine and cannot be loaded"));
    }
    let check = symbol(handle, c"twin_check")?;
    let one = symbol(handle, c"twin_run")?;
    let all = symbol(handle, c"twin_run_all")?;
    // The object is compiled from bench/twin.h, which gives the types.
    unsafe {
        Ok(Engine {
            check: std::mem::transmute::<*mut c_void, CheckCall>(check),
            runs: Some(Runs {
                one: std::mem::transmute::<*mut c_void, RunCall>(one),
                all: std::mem::transmute::<*mut c_void, RunAllCall>(all),
            }),
        })
    }
}

fn symbol(handle: *mut c_void, name: &std::ffi::CStr) -> Result<*mut c_void, String> {
    let found = unsafe { dlsym(handle, name.as_ptr()) };
    if found.is_null() {
        return Err(format!("{name:?} is missing"));
    }
    Ok(found)
}
