//! The start and the status of a program.

/// The status of a program.
#[derive(Clone, Copy, Debug, PartialEq, Eq)]
pub struct ExitCode(u8);

impl From<u8> for ExitCode {
    fn from(status: u8) -> ExitCode {
        ExitCode(status)
    }
}

impl rust_std::process::Termination for ExitCode {
    fn report(self) -> rust_std::process::ExitCode {
        self.0.into()
    }
}

/// What a `main` may answer.
pub trait Ends {
    /// The status.
    fn status(self) -> i32;
}

impl Ends for ExitCode {
    fn status(self) -> i32 {
        i32::from(self.0)
    }
}

impl<E: core::fmt::Debug> Ends for Result<(), E> {
    fn status(self) -> i32 {
        match self {
            Ok(()) => 0,
            Err(error) => {
                rust_std::eprintln!("Error: {error:?}");
                1
            }
        }
    }
}

#[cfg(unix)]
pub use start::{started, words};

#[cfg(unix)]
mod start {
    use super::Ends;
    use core::ffi::{CStr, c_char, c_int};
    use core::sync::atomic::{AtomicPtr, AtomicUsize, Ordering};

    static COUNT: AtomicUsize = AtomicUsize::new(0);
    static FIRST: AtomicPtr<*const c_char> = AtomicPtr::new(core::ptr::null_mut());

    /// Runs a `main` as the kit's start does: a closed stream stays closed, where Rust's own start opens /dev/null in its place, a
    /// pipe that nobody reads is an error of a write, and the words are those of the system.
    pub fn started<R: Ends>(main: fn() -> R, count: c_int, first: *mut *const c_char) -> c_int {
        unsafe extern "C" {
            fn signal(number: c_int, handler: usize) -> usize;
        }
        const SIGPIPE: c_int = 13;
        const IGNORED: usize = 1;
        // SAFETY: the C library has it with these types, and to ignore a signal runs nothing.
        unsafe { signal(SIGPIPE, IGNORED) };
        FIRST.store(first, Ordering::Relaxed);
        COUNT.store(count as usize, Ordering::Relaxed);
        main().status()
    }

    /// The words that the program was started with.
    pub fn words() -> impl Iterator<Item = &'static CStr> {
        let first = FIRST.load(Ordering::Relaxed);
        // SAFETY: the system handed `main` that many texts, each of which ends with 0, for as long as the process lives.
        (0..COUNT.load(Ordering::Relaxed)).map(move |k| unsafe { CStr::from_ptr(*first.add(k)) })
    }
}

/// What may end the program. The tests ask for it, to fail.
pub trait Abort {}

impl Abort for crate::rt::HostRuntime {}

impl<T: Abort + ?Sized> Abort for &T {}
