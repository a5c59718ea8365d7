//! Lines on standard output. Where they can't be written the run ends with status 2: nobody would see what it finds.

use std::fmt::Arguments;
use std::io::{self, ErrorKind, Write};

/// Says a line, as `println!` does.
#[macro_export]
macro_rules! say {
    ($($words:tt)*) => {
        $crate::say::line(format_args!($($words)*))
    };
}

/// Ends a run whose standard output is closed before it begins.
pub fn begin() {
    if program::closed::output() {
        end(&"it is closed");
    }
}

/// Says a line.
pub fn line(words: Arguments) {
    if cfg!(test) {
        return println!("{words}");
    }
    match writeln!(io::stdout(), "{words}") {
        Ok(()) => {}
        // Whoever reads the output has seen enough.
        Err(error) if error.kind() == ErrorKind::BrokenPipe => std::process::exit(2),
        Err(error) => end(&error),
    }
}

fn end(why: &dyn std::fmt::Display) -> ! {
    // What can't be told here either is lost.
    let _ = writeln!(io::stderr(), "standard output: {why}");
    std::process::exit(2)
}
