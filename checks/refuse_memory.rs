//! Preloaded into a program, it refuses the request for memory whose number, counted from 1, stands in `REFUSED_REQUEST`, and the start
//! of a thread whose number stands in `REFUSED_THREAD`, as where no memory is left for it. It refuses each request that is greater than
//! `GREATEST_REQUEST`, and each with which more bytes than `MOST_BYTES` would have been asked for in all. Where `TOLD_ON` has the number of an
//! open file, the program's end writes five numbers to it: how many requests there were, how many starts of threads, how many of both
//! were refused, the most bytes that lived at a time, and how many live at the end.

#![no_std]

use core::ffi::{CStr, c_char, c_int, c_long, c_void};
use core::mem::transmute;
use core::ptr::null_mut;
use core::sync::atomic::{AtomicI64, Ordering};

unsafe extern "C" {
    fn __libc_malloc(size: usize) -> *mut c_void;
    fn __libc_realloc(old: *mut c_void, size: usize) -> *mut c_void;
    fn __libc_free(old: *mut c_void);
    fn malloc_usable_size(place: *mut c_void) -> usize;
    fn dlsym(library: *mut c_void, name: *const c_char) -> *mut c_void;
    fn getenv(name: *const c_char) -> *const c_char;
    fn atol(text: *const c_char) -> c_long;
    fn dprintf(file: c_int, form: *const c_char, ...) -> c_int;
}

type StartThread = unsafe extern "C" fn(*mut c_void, *const c_void, *mut c_void, *mut c_void) -> c_int;

type Exit = unsafe extern "C" fn(c_int) -> !;

// The library that comes next, of C's `RTLD_NEXT`.
const NEXT: *mut c_void = -1isize as *mut c_void;

// C's `EAGAIN`.
const NO_RESOURCES: c_int = 11;

static REQUESTS: AtomicI64 = AtomicI64::new(0);

static BYTES: AtomicI64 = AtomicI64::new(0);

static THREADS: AtomicI64 = AtomicI64::new(0);

static REFUSED: AtomicI64 = AtomicI64::new(0);

static LIVE: AtomicI64 = AtomicI64::new(0);

static PEAK: AtomicI64 = AtomicI64::new(0);

/// The number in a variable of the environment, if it is there.
fn number_in(name: &CStr) -> Option<c_long> {
    let text = unsafe { getenv(name.as_ptr()) };
    if text.is_null() { None } else { Some(unsafe { atol(text) }) }
}

/// Counts a refusal.
fn told(is_refused: bool) -> bool {
    REFUSED.fetch_add(i64::from(is_refused), Ordering::SeqCst);
    is_refused
}

/// Whether the request of that number is the one in the variable.
fn is_chosen(request: c_long, variable: &CStr) -> bool {
    number_in(variable) == Some(request)
}

/// Whether a number is above the one in the variable.
fn is_above(number: c_long, variable: &CStr) -> bool {
    number_in(variable).is_some_and(|most| number > most)
}

fn is_memory_refused(size: usize) -> bool {
    let request = REQUESTS.fetch_add(1, Ordering::SeqCst) + 1;
    let bytes = BYTES.fetch_add(size as i64, Ordering::SeqCst) + size as i64;
    told(is_chosen(request, c"REFUSED_REQUEST") || is_above(size as c_long, c"GREATEST_REQUEST") || is_above(bytes, c"MOST_BYTES"))
}

/// Counts the bytes of a place as living, beside those that lived there before.
fn counted(place: *mut c_void, before: usize) -> *mut c_void {
    if !place.is_null() {
        let more = unsafe { malloc_usable_size(place) } as i64 - before as i64;
        PEAK.fetch_max(LIVE.fetch_add(more, Ordering::SeqCst) + more, Ordering::SeqCst);
    }
    place
}

#[unsafe(no_mangle)]
extern "C" fn malloc(size: usize) -> *mut c_void {
    if is_memory_refused(size) { null_mut() } else { counted(unsafe { __libc_malloc(size) }, 0) }
}

#[unsafe(no_mangle)]
extern "C" fn realloc(old: *mut c_void, size: usize) -> *mut c_void {
    if is_memory_refused(size) {
        return null_mut();
    }
    let before = unsafe { malloc_usable_size(old) };
    counted(unsafe { __libc_realloc(old, size) }, before)
}

#[unsafe(no_mangle)]
extern "C" fn free(old: *mut c_void) {
    LIVE.fetch_sub(unsafe { malloc_usable_size(old) } as i64, Ordering::SeqCst);
    unsafe { __libc_free(old) }
}

#[unsafe(no_mangle)]
extern "C" fn pthread_create(thread: *mut c_void, settings: *const c_void, start: *mut c_void, word: *mut c_void) -> c_int {
    if told(is_chosen(THREADS.fetch_add(1, Ordering::SeqCst) + 1, c"REFUSED_THREAD")) {
        return NO_RESOURCES;
    }
    unsafe {
        let next = dlsym(NEXT, c"pthread_create".as_ptr());
        transmute::<*mut c_void, StartThread>(next)(thread, settings, start, word)
    }
}

// A program with threads ends so, and what stands in `.fini_array` isn't run.
#[unsafe(no_mangle)]
extern "C" fn _exit(status: c_int) -> ! {
    tell_counts();
    unsafe {
        let next = dlsym(NEXT, c"_exit".as_ptr());
        transmute::<*mut c_void, Exit>(next)(status)
    }
}

extern "C" fn tell_counts() {
    if let Some(file) = number_in(c"TOLD_ON") {
        let [requests, threads, refused, peak, live] = [&REQUESTS, &THREADS, &REFUSED, &PEAK, &LIVE].map(|it| it.load(Ordering::SeqCst));
        unsafe { dprintf(file as c_int, c"%ld %ld %ld %ld %ld".as_ptr(), requests, threads, refused, peak, live) };
    }
}

// (run as the program ends)
#[used]
#[unsafe(link_section = ".fini_array")]
static AT_THE_END: extern "C" fn() = tell_counts;

#[panic_handler]
fn panic(_info: &core::panic::PanicInfo) -> ! {
    loop {}
}
