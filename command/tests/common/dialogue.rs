//! A dialogue with a desk over pipes: its input stays open while its answers are read.

use super::run::{ended, BINARY, TOO_LONG};
use super::Folder;
use std::io::{BufRead, BufReader, ErrorKind, Read, Write};
use std::process::{Child, ChildStdin, Command, Stdio};
use std::sync::mpsc::{channel, Receiver};
use std::thread;

pub struct Desk {
    child: Child,
    input: Option<ChildStdin>,
    answers: Receiver<String>,
}

impl Desk {
    /// Starts `velichundam desk` with these further words in the folder.
    pub fn open(folder: &Folder, words: &[&str]) -> Desk {
        let mut command = Command::new(BINARY);
        command.current_dir(folder.path()).arg("desk").args(words).stdin(Stdio::piped()).stdout(Stdio::piped()).stderr(Stdio::piped());
        let mut child = command.spawn().unwrap();
        let (input, output) = (child.stdin.take(), child.stdout.take().unwrap());
        let (sender, answers) = channel();
        thread::spawn(move || BufReader::new(output).lines().map_while(Result::ok).all(|line| sender.send(line).is_ok()));
        Desk { child, input, answers }
    }

    pub fn id(&self) -> u32 {
        self.child.id()
    }

    /// Writes bytes to the desk as they are.
    pub fn say(&mut self, bytes: impl AsRef<[u8]>) {
        let input = self.input.as_mut().unwrap();
        input.write_all(bytes.as_ref()).unwrap();
        input.flush().unwrap();
    }

    /// The same to a desk that may have ended.
    pub fn try_say(&mut self, bytes: impl AsRef<[u8]>) {
        let said = self.input.as_mut().unwrap().write_all(bytes.as_ref());
        assert!(said.is_ok() || said.is_err_and(|error| error.kind() == ErrorKind::BrokenPipe));
    }

    /// The next line of its output. A desk that doesn't answer hangs.
    #[track_caller]
    pub fn answer(&self) -> String {
        self.answers.recv_timeout(TOO_LONG).expect("no answer came")
    }

    /// Writes a line and awaits its answer.
    #[track_caller]
    pub fn ask(&mut self, line: &str) -> String {
        self.say(format!("{line}\n"));
        self.answer()
    }

    /// Closes the input and awaits the end: the status, the answers not yet read, and the error output.
    pub fn end(mut self) -> (i32, Vec<String>, String) {
        drop(self.input.take());
        let status = ended(&mut self.child, "the desk");
        let mut errors = String::new();
        self.child.stderr.take().unwrap().read_to_string(&mut errors).unwrap();
        (status, self.answers.iter().collect(), errors)
    }
}
