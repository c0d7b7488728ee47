//! The port as a program: a process for each case.

use std::fs::{self, File};
use std::io;
use std::path::{Path, PathBuf};
use std::process::{Child, Command, ExitStatus, Stdio};
use std::thread;
use std::time::{Duration, Instant};

/// A program that takes longer for a case hangs.
const LIMIT: Duration = Duration::from_secs(20);
const PAUSE: Duration = Duration::from_micros(200);

pub struct Program {
    path: PathBuf,
    /// The case comes from a file and the trace goes to one: a pipe would have to be filled and emptied
    /// while the program runs.
    case: PathBuf,
    trace: PathBuf,
}

impl Program {
    /// The files of a case stand beside `out`.
    pub fn new(path: &Path, out: &Path) -> Self {
        Self {
            path: path.into(),
            case: out.with_extension("case"),
            trace: out.with_extension("trace"),
        }
    }

    /// What the program prints for a case.
    pub fn trace(&self, case: &[u8]) -> io::Result<Vec<u8>> {
        fs::write(&self.case, case)?;
        let child = Command::new(&self.path)
            .stdin(File::open(&self.case)?)
            .stdout(File::create(&self.trace)?)
            .stderr(Stdio::null())
            .spawn()?;
        let ended = wait(child)?;
        let mut trace = fs::read(&self.trace)?;
        match ended {
            Some(status) if status.code().is_some() => {}
            Some(status) => trace.extend(format!("ended by {status}\n").bytes()),
            None => trace.extend(b"no end\n"),
        }
        Ok(trace)
    }

    pub fn clear(&self) -> io::Result<()> {
        fs::remove_file(&self.case)?;
        fs::remove_file(&self.trace)
    }
}

/// Gives nothing where the program did not end in time.
fn wait(mut child: Child) -> io::Result<Option<ExitStatus>> {
    let start = Instant::now();
    loop {
        if let Some(status) = child.try_wait()? {
            return Ok(Some(status));
        }
        if start.elapsed() > LIMIT {
            child.kill()?;
            child.wait()?;
            return Ok(None);
        }
        thread::sleep(PAUSE);
    }
}
