//! What the programs use of Rattle's `std`: reading standard input, and writing.
pub mod fmt {
    pub use ::std::fmt::{Display, Result, Write};
}

pub mod io {
    pub use ::std::io::{Read, Result};
}

/// The handle that a program is started with. What it writes is written at once.
pub mod rt {
    use ::std::fmt::Display;
    use ::std::io::{stderr, stdin, stdout, Read, Result, Write};

    pub struct HostRuntime;

    pub struct Stdin(::std::io::Stdin);

    #[derive(Clone, Copy, PartialEq, Eq, Debug)]
    pub struct Stdout;

    #[derive(Clone, Copy, PartialEq, Eq, Debug)]
    pub struct Stderr;

    fn put(mut to: impl Write, bytes: &[u8]) -> Result<()> {
        to.write_all(bytes)?;
        to.flush()
    }

    impl Stdout {
        pub fn write_all(self, bytes: &[u8]) -> Result<()> {
            put(stdout().lock(), bytes)
        }
    }

    impl Stderr {
        pub fn write_all(self, bytes: &[u8]) -> Result<()> {
            put(stderr().lock(), bytes)
        }

        pub fn print(self, value: impl Display) -> Result<()> {
            self.write_all(value.to_string().as_bytes())
        }
    }

    impl HostRuntime {
        pub fn stdin(&self) -> Stdin {
            Stdin(stdin())
        }

        pub fn stdout(&self) -> Stdout {
            Stdout
        }

        pub fn stderr(&self) -> Stderr {
            Stderr
        }

        pub fn print(&self, value: impl Display) -> Result<()> {
            self.write_all(value.to_string().as_bytes())
        }

        pub fn println(&self, value: impl Display) -> Result<()> {
            self.print(format_args!("{value}\n"))
        }

        pub fn write_all(&self, bytes: &[u8]) -> Result<()> {
            Stdout.write_all(bytes)
        }

        pub fn eprintln(&self, value: impl Display) -> Result<()> {
            Stderr.print(format_args!("{value}\n"))
        }
    }

    impl Read for Stdin {
        fn read(&mut self, buffer: &mut [u8]) -> Result<usize> {
            self.0.lock().read(buffer)
        }
    }
}

/// Rattle's form of it: it prints through the handle, and says whether it could.
#[macro_export]
macro_rules! println {
    ($rt:expr; $($format:tt)+) => {
        $rt.println(format_args!($($format)+))
    };
}
