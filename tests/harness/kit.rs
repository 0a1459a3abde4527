//! A stand-in for the kit's std, as far as the program `bench` calls it, so that its text runs as rustc compiles it. A module of the program
//! that tests/native makes of what tests/strip.py writes: there `std::` is this module, and its prelude is seen everywhere.

pub use std::{array, str};

pub mod prelude {
    pub use super::io::{Eprint, Print};

    /// What a program is handed.
    pub struct HostRuntime;
}

macro_rules! eprint {
    ($rt:expr; $($text:tt)*) => { $rt.eprint(&format!($($text)*)) };
}

macro_rules! eprintln {
    ($rt:expr; $($text:tt)*) => { $rt.eprintln(format!($($text)*)) };
}

pub mod fmt {
    pub use std::fmt::*;

    /// A text of at most N bytes; none here is longer.
    pub struct InlineText<const N: usize>(String);

    impl<const N: usize> InlineText<N> {
        pub fn of(value: impl Display) -> InlineText<N> {
            let text = value.to_string();
            assert!(text.len() <= N);
            InlineText(text)
        }

        pub fn as_str(&self) -> &str {
            &self.0
        }
    }
}

pub mod io {
    use super::prelude::HostRuntime;
    pub use std::io::*;

    pub trait Print {
        fn out(&self) -> Stdout;
    }

    pub trait Eprint {
        fn eprint(&self, text: &str) -> Result<()>;

        fn eprintln(&self, text: impl std::fmt::Display) -> Result<()> {
            self.eprint(&format!("{text}\n"))
        }
    }

    impl Print for HostRuntime {
        fn out(&self) -> Stdout {
            stdout()
        }
    }

    impl Eprint for HostRuntime {
        fn eprint(&self, text: &str) -> Result<()> {
            stderr().write_all(text.as_bytes())
        }
    }

    pub fn writer(to: &impl Print) -> Stdout {
        to.out()
    }
}

pub mod rt {
    pub trait Files {}

    impl Files for super::prelude::HostRuntime {}
}

pub mod fs {
    use super::io::{Read, Result, Write};
    use super::rt::Files;
    use std::fs;

    pub struct File(fs::File);

    /// What can be done with a file beside reading and writing.
    pub trait OpenFile {
        fn sync_all(&self) -> Result<()>;
    }

    impl File {
        pub fn create_new(_: &impl Files, path: &str) -> Result<File> {
            let mut how = fs::OpenOptions::new();
            how.write(true).create_new(true).open(path).map(File)
        }
    }

    impl OpenFile for File {
        fn sync_all(&self) -> Result<()> {
            self.0.sync_all()
        }
    }

    impl Read for File {
        fn read(&mut self, bytes: &mut [u8]) -> Result<usize> {
            self.0.read(bytes)
        }
    }

    impl Write for File {
        fn write(&mut self, bytes: &[u8]) -> Result<usize> {
            self.0.write(bytes)
        }

        fn flush(&mut self) -> Result<()> {
            self.0.flush()
        }
    }

    pub fn open(_: &impl Files, path: &str) -> Result<File> {
        fs::File::open(path).map(File)
    }

    pub fn create_dir(_: &impl Files, path: &str) -> Result<()> {
        fs::create_dir(path)
    }

    pub fn remove_file(_: &impl Files, path: &str) -> Result<()> {
        fs::remove_file(path)
    }

    pub fn rename(_: &impl Files, from: &str, to: &str) -> Result<()> {
        fs::rename(from, to)
    }
}

pub mod env {
    use super::prelude::HostRuntime;
    use std::os::unix::ffi::OsStringExt;

    pub enum FillError {
        NotPresent,
        TooLong,
    }

    pub trait Env {
        fn arg(&self, number: usize, buffer: &mut [u8]) -> Result<usize, FillError>;
    }

    impl Env for HostRuntime {
        fn arg(&self, number: usize, buffer: &mut [u8]) -> Result<usize, FillError> {
            let word = std::env::args_os().nth(number);
            let word = word.ok_or(FillError::NotPresent)?.into_vec();
            let place = buffer.get_mut(..word.len()).ok_or(FillError::TooLong)?;
            place.copy_from_slice(&word);
            Ok(word.len())
        }
    }
}
