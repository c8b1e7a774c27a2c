//! A program that answers case lines, run beside this one.

use std::io::{BufRead, BufReader, Write};
use std::path::Path;
use std::process::{Child as Process, ChildStdout, Command, Stdio};
use std::sync::Arc;
use std::sync::mpsc::{Sender, channel};
use std::thread;

pub struct Child {
    name: String,
    process: Process,
    /// To the thread that writes: neither program waits for the other to read.
    lines: Option<Sender<Arc<String>>>,
    answers: BufReader<ChildStdout>,
}

impl Child {
    /// Starts the script `run` of a folder of tests/.
    pub fn start(name: &str) -> Result<Child, String> {
        let script = Path::new(env!("CARGO_MANIFEST_DIR")).join("..").join(name).join("run");
        let started = Command::new(&script).stdin(Stdio::piped()).stdout(Stdio::piped()).spawn();
        let mut process = started.map_err(|e| format!("{}: {e}", script.display()))?;
        let (lines, to_write) = channel::<Arc<String>>();
        let mut stdin = process.stdin.take().expect("it is a pipe");
        thread::spawn(move || to_write.iter().all(|text| stdin.write_all(text.as_bytes()).is_ok()));
        let answers = BufReader::with_capacity(1 << 16, process.stdout.take().expect("it is a pipe"));
        Ok(Child { name: name.into(), process, lines: Some(lines), answers })
    }

    /// Hands over case lines. A program that has ended is noticed at its next answer.
    pub fn send(&self, text: &Arc<String>) {
        if let Some(lines) = &self.lines {
            let _ = lines.send(Arc::clone(text));
        }
    }

    /// No more lines come: the program can give its last answers.
    pub fn close(&mut self) {
        self.lines = None;
    }

    /// The next answer without its full stop.
    pub fn answer(&mut self) -> Result<String, String> {
        let mut answer = String::new();
        loop {
            let start = answer.len();
            match self.answers.read_line(&mut answer) {
                Ok(0) | Err(_) => return Err(format!("{} ended before its last answer", self.name)),
                Ok(_) if &answer[start..] == ".\n" => break,
                Ok(_) => {}
            }
        }
        answer.truncate(answer.len() - 2);
        Ok(answer)
    }

    /// Waits for the end, which must be a good one with no answer left.
    pub fn finish(mut self) -> Result<(), String> {
        self.close();
        let more = self.answers.fill_buf().is_ok_and(|more| !more.is_empty());
        match self.process.wait() {
            Ok(status) if status.success() && !more => Ok(()),
            Ok(status) if !more => Err(format!("{} ended with {status}", self.name)),
            _ => Err(format!("{} gave more answers than cases", self.name)),
        }
    }
}
