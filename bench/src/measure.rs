//! How long a program runs, and the most memory that it takes.

use std::ffi::{c_int, c_long};
use std::fs::File;
use std::path::Path;
use std::process::{Command, Stdio};
use std::time::{Duration, Instant};

pub struct Measured {
    pub time: Duration,
    /// The most memory at once, in kilobytes.
    pub peak: u64,
    pub succeeded: bool,
}

/// What the operating system says of a process that has ended: the two times, the peak, and more.
#[repr(C)]
struct Usage {
    times: [c_long; 4],
    peak: c_long,
    rest: [c_long; 13],
}

extern "C" {
    fn wait4(process: c_int, status: *mut c_int, options: c_int, usage: *mut Usage) -> c_int;
}

/// Runs a program once on a file, and throws away what it prints. The memory of the one who measures counts as well until the program
/// has begun, so that it has to be small.
pub fn measure(program: &Path, input: &Path) -> std::io::Result<Measured> {
    let begin = Instant::now();
    let child = Command::new(program)
        .stdin(File::open(input)?)
        .stdout(Stdio::null())
        .spawn()?;
    let mut status: c_int = -1;
    let mut usage = Usage {
        times: [0; 4],
        peak: 0,
        rest: [0; 13],
    };
    // The process is a child of this one and nobody else waits for it; both places are large enough for what is written.
    let ended = unsafe { wait4(child.id() as c_int, &mut status, 0, &mut usage) };
    if ended < 0 {
        return Err(std::io::Error::last_os_error());
    }
    Ok(Measured {
        time: begin.elapsed(),
        peak: usage.peak as u64,
        succeeded: status == 0,
    })
}

/// The run with the median time of so many.
pub fn median(program: &Path, input: &Path, runs: usize) -> std::io::Result<Measured> {
    let mut all = vec![];
    for _ in 0..runs {
        let one = measure(program, input)?;
        if !one.succeeded {
            return Err(std::io::Error::other("it did not end well"));
        }
        all.push(one);
    }
    all.sort_by_key(|one| one.time);
    Ok(all.swap_remove(runs / 2))
}
