//! The program `yard`: the words of its call, the standard streams and the status.
//!
//! Rust's own standard streams pass over errors that a result must not be lost by: the runtime puts the null device in
//! the place of a stream that is closed, and a stream that is open the other way round reads as empty and writes to
//! nowhere. So the descriptors are looked at before the runtime starts, and used as files.

use std::ffi::OsString;
use std::fs::File;
use std::io::{self, BufReader, BufWriter, Read, Write};
use std::os::fd::AsFd;
use std::process::ExitCode;
use std::sync::atomic::{AtomicBool, Ordering};
use tool::Streams;

/// The descriptors of standard input and output.
const INPUT: usize = 0;
const OUTPUT: usize = 1;

/// Whether they were closed when the program was started.
static IS_CLOSED: [AtomicBool; 2] = [const { AtomicBool::new(false) }; 2];

extern "C" {
    fn fcntl(file: i32, command: i32, ...) -> i32;
}

extern "C" fn look() {
    const GET_FLAGS: i32 = 1;
    for stream in [INPUT, OUTPUT] {
        // SAFETY: asking for a descriptor's flags changes nothing, and takes no third argument.
        let flags = unsafe { fcntl(stream as i32, GET_FLAGS) };
        IS_CLOSED[stream].store(flags == -1, Ordering::Relaxed);
    }
}

#[used]
#[link_section = ".init_array"]
static LOOK_FIRST: extern "C" fn() = look;

/// A standard stream as a file, if it is open.
struct Stream(Option<File>);

impl Stream {
    fn new(number: usize, stream: &impl AsFd) -> Self {
        let file = stream.as_fd().try_clone_to_owned().ok().map(File::from);
        Stream(file.filter(|_| !IS_CLOSED[number].load(Ordering::Relaxed)))
    }

    fn file(&mut self) -> io::Result<&mut File> {
        self.0.as_mut().ok_or_else(|| io::Error::other("closed"))
    }
}

impl Read for Stream {
    fn read(&mut self, buffer: &mut [u8]) -> io::Result<usize> {
        self.file()?.read(buffer)
    }
}

impl Write for Stream {
    fn write(&mut self, bytes: &[u8]) -> io::Result<usize> {
        self.file()?.write(bytes)
    }

    fn flush(&mut self) -> io::Result<()> {
        Ok(())
    }
}

fn main() -> ExitCode {
    let words: Vec<OsString> = std::env::args_os().skip(1).collect();
    let mut streams = Streams {
        input: &mut BufReader::new(Stream::new(INPUT, &io::stdin())),
        output: &mut BufWriter::new(Stream::new(OUTPUT, &io::stdout())),
        errors: &mut io::stderr(),
    };
    ExitCode::from(tool::run(&words, &mut streams) as u8)
}
