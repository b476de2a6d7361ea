//! The runtime that `main` is given.

use crate::alloc::Global;

/// What has the global allocator.
pub trait AllocGlobal {
    /// The allocator.
    fn alloc(&self) -> Global;
}

/// What prints lines.
pub trait Print {
    /// Prints a line.
    fn print_line(&self, line: core::fmt::Arguments<'_>) -> crate::io::Result<()>;
}

impl<T: Print + ?Sized> Print for &T {
    fn print_line(&self, line: core::fmt::Arguments<'_>) -> crate::io::Result<()> {
        (**self).print_line(line)
    }
}

impl<T: AllocGlobal + ?Sized> AllocGlobal for &T {
    fn alloc(&self) -> Global {
        (**self).alloc()
    }
}

/// What has the words of the command line.
#[cfg(feature = "alloc")]
pub trait Env {
    /// The words, the program's name first. One that isn't UTF-8 is an error, as is the want of memory.
    fn words(&self) -> crate::io::Result<crate::vec::Vec<crate::string::String>>;
}

#[cfg(feature = "alloc")]
impl<T: Env + ?Sized> Env for &T {
    fn words(&self) -> crate::io::Result<crate::vec::Vec<crate::string::String>> {
        (**self).words()
    }
}

#[cfg(feature = "host")]
pub use host::*;

#[cfg(feature = "host")]
mod host {
    use super::{AllocGlobal, Env, Print};
    use crate::alloc::Global;
    use crate::io::{Error, Read, Result, Write};
    use crate::string::String;
    use crate::vec::Vec;
    use rust_std::fs::File;
    use rust_std::io::{Read as _, Write as _};
    use rust_std::mem::ManuallyDrop;

    /// The runtime of a process.
    pub struct HostRuntime(());

    /// The runtime, for a `main` and a test.
    pub fn host() -> HostRuntime {
        HostRuntime(())
    }

    impl Env for HostRuntime {
        fn words(&self) -> Result<Vec<String>> {
            let mut all = Vec::new(Global);
            #[cfg(unix)]
            for word in crate::process::words() {
                push(&mut all, word.to_str().map_err(|_| Error(None))?)?;
            }
            #[cfg(not(unix))]
            for word in rust_std::env::args_os() {
                push(&mut all, word.to_str().ok_or(Error(None))?)?;
            }
            Ok(all)
        }
    }

    fn push(all: &mut Vec<String>, word: &str) -> Result<()> {
        let word = String::from_str(Global, word).map_err(|_| Error(None))?;
        all.push(word).map_err(|_| Error(None))
    }

    impl AllocGlobal for HostRuntime {
        fn alloc(&self) -> Global {
            Global
        }
    }

    impl Print for HostRuntime {
        fn print_line(&self, line: core::fmt::Arguments<'_>) -> Result<()> {
            let mut pieces = Pieces { out: self.stdout(), failed: None };
            let done = core::fmt::write(&mut pieces, format_args!("{line}\n"));
            done.map_err(|_| pieces.failed.unwrap_or(Error(None)))
        }
    }

    // Writes the pieces of a line as they come, and keeps why that failed.
    struct Pieces {
        out: Stdout,
        failed: Option<Error>,
    }

    impl core::fmt::Write for Pieces {
        fn write_str(&mut self, piece: &str) -> core::fmt::Result {
            self.out.0.write_all(piece.as_bytes()).map_err(|error| {
                self.failed = Some(of_rust(error));
                core::fmt::Error
            })
        }
    }

    impl HostRuntime {
        /// Standard input, with no buffer.
        pub fn stdin(&self) -> Stdin {
            Stdin(stream(0))
        }

        /// Standard output, with no buffer.
        pub fn stdout(&self) -> Stdout {
            Stdout(stream(1))
        }
    }

    fn of_rust(e: rust_std::io::Error) -> Error {
        Error(e.raw_os_error())
    }

    #[cfg(unix)]
    fn stream(number: i32) -> ManuallyDrop<File> {
        use rust_std::os::fd::FromRawFd;
        // SAFETY: nothing closes it, since it is never dropped.
        ManuallyDrop::new(unsafe { File::from_raw_fd(number) })
    }

    /// Standard input.
    pub struct Stdin(ManuallyDrop<File>);

    impl Read for Stdin {
        fn read(&mut self, buf: &mut [u8]) -> Result<usize> {
            self.0.read(buf).map_err(of_rust)
        }
    }

    /// Standard output.
    pub struct Stdout(ManuallyDrop<File>);

    impl Write for Stdout {
        fn write(&mut self, piece: &[u8]) -> Result<usize> {
            self.0.write(piece).map_err(of_rust)
        }

        fn flush(&mut self) -> Result<()> {
            Ok(())
        }
    }
}
