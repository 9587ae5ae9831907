//! Calls the proved programs, and the host that lends the proved library memory: gives them their input, takes their lines, and shows on a
//! terminal that they are at work.

use super::frames::LEND;
use crate::messages::Trouble;
use crate::output;
use std::io::{BufRead, BufReader, IsTerminal, Write};
use std::os::unix::process::CommandExt;
use std::path::PathBuf;
use std::process::{Child, Command, Stdio};
use std::sync::mpsc::{self, Receiver, RecvTimeoutError};
use std::thread;
use std::time::{Duration, Instant};

pub struct Programs {
    root: PathBuf,
}

/// What is shown on a terminal while a program takes longer than a second.
struct Progress<'a> {
    labels: &'a [String],
    began: Instant,
    is_on: bool,
    is_shown: bool,
}

impl Programs {
    pub fn new() -> Result<Programs, Trouble> {
        let root = std::env::var_os("GARLUVENI_ROOT").ok_or(Trouble::NoRoot)?;
        Ok(Programs { root: root.into() })
    }

    /// Hands each line that the program prints to `each`; the labels say what each line is waited for.
    pub fn lines(
        &self,
        program: &str,
        input: Vec<u8>,
        labels: &[String],
        each: &mut dyn FnMut(&str) -> Result<(), Trouble>,
    ) -> Result<(), Trouble> {
        let mut child = self.start(program)?;
        let lines = converse(&mut child, input);
        let taken = take_lines(&lines, labels, each);
        if taken.is_err() {
            // whatever it was about to say, nobody listens any more
            let _ = child.kill();
        }
        let ended = child.wait();
        taken?;
        match ended {
            Ok(status) if status.success() => Ok(()),
            Ok(status) => Err(Trouble::ProgramEnded(
                program.to_string(),
                status.to_string(),
            )),
            Err(error) => Err(Trouble::ProgramEnded(
                program.to_string(),
                output::plain(&error),
            )),
        }
    }

    fn start(&self, program: &str) -> Result<Child, Trouble> {
        let mut command = self.command(program);
        command.stdin(Stdio::piped()).stdout(Stdio::piped());
        end_with_parent(&mut command);
        command
            .spawn()
            .map_err(|error| Trouble::CannotRun(program.to_string(), output::plain(&error)))
    }

    /// The host is a C program, and has a script of its own; `tools/run` runs those that Rattle built.
    fn command(&self, program: &str) -> Command {
        let tools = self.root.join("tools");
        if program == LEND {
            return Command::new(tools.join(LEND));
        }
        let mut command = Command::new(tools.join("run"));
        command.arg(program);
        command
    }
}

/// A walk can take hours: whoever ends the front door ends the program too.
fn end_with_parent(command: &mut Command) {
    extern "C" {
        fn prctl(option: i32, ...) -> i32;
    }
    const SET_PARENT_DEATH_SIGNAL: i32 = 1;
    const KILL: u64 = 9;
    // SAFETY: between fork and exec only this one system call is made, with two numbers
    unsafe {
        command.pre_exec(|| match prctl(SET_PARENT_DEATH_SIGNAL, KILL) {
            0 => Ok(()),
            _ => Err(std::io::Error::last_os_error()),
        });
    }
}

/// Writes the input and reads the lines, each in a thread of its own: a program may print before it has read all.
fn converse(child: &mut Child, input: Vec<u8>) -> Receiver<String> {
    let (send, lines) = mpsc::channel();
    if let Some(mut stdin) = child.stdin.take() {
        // a program may end before it has read all; what it printed says why
        thread::spawn(move || stdin.write_all(&input).ok());
    }
    if let Some(stdout) = child.stdout.take() {
        thread::spawn(move || {
            let lines = BufReader::new(stdout).lines();
            lines
                .map_while(Result::ok)
                .all(|line| send.send(line).is_ok())
        });
    }
    lines
}

fn take_lines(
    lines: &Receiver<String>,
    labels: &[String],
    each: &mut dyn FnMut(&str) -> Result<(), Trouble>,
) -> Result<(), Trouble> {
    let mut progress = Progress::new(labels);
    let mut taken = 0;
    loop {
        match lines.recv_timeout(Duration::from_millis(200)) {
            Ok(line) => {
                taken += 1;
                progress.clear();
                progress.began = Instant::now();
                each(&line)?;
            }
            Err(RecvTimeoutError::Timeout) => progress.show(taken),
            Err(RecvTimeoutError::Disconnected) => break,
        }
    }
    progress.clear();
    Ok(())
}

impl Progress<'_> {
    fn new(labels: &[String]) -> Progress<'_> {
        Progress {
            labels,
            began: Instant::now(),
            is_on: std::io::stderr().is_terminal(),
            is_shown: false,
        }
    }

    fn show(&mut self, at: usize) {
        let seconds = self.began.elapsed().as_secs();
        if self.is_on && seconds >= 1 {
            let label = self.labels.get(at).map_or("", String::as_str);
            output::say(&format!("\r\x1b[K{label}: {seconds} s .."));
            self.is_shown = true;
        }
    }

    fn clear(&mut self) {
        if self.is_shown {
            output::say("\r\x1b[K");
            self.is_shown = false;
        }
    }
}
