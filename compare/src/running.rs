//! Running a program on an input.

use crate::case::File;
use crate::folder::Folder;
use std::io::{self, Read, Write};
use std::path::{absolute, PathBuf};
use std::process::{Command, ExitStatus, Stdio};
use std::sync::mpsc::{self, Receiver};
use std::thread;
use std::time::{Duration, Instant};

/// How long a program may take for one input, and how much it may write.
const LIMIT: Duration = Duration::from_secs(60);
const MOST: u64 = 1 << 26;

/// What a program writes to standard output for an input, or a sentence that says how it failed. Where there are files, it is
/// run in a new folder that has them, and their names are its arguments.
pub fn output_of(program: &str, input: &[u8], files: &[File]) -> Result<Vec<u8>, String> {
    if files.is_empty() {
        return output_within(LIMIT, Command::new(program), input);
    }
    let (folder, mut command) = (Folder::with(files)?, Command::new(from_anywhere(program)));
    command.current_dir(&folder.path).args(files.iter().map(File::argument));
    output_within(LIMIT, command, input)
}

/// What a program writes for an input to standard output and to standard error, with an argument or without one. That its
/// status is 1 is no fault.
pub fn outputs_of(program: &str, argument: Option<&str>, input: &[u8]) -> Result<[Vec<u8>; 2], String> {
    let mut command = Command::new(program);
    command.args(argument);
    let (outputs, status) = ended_within(LIMIT, command, input)?;
    if matches!(status.code(), Some(0 | 1)) {
        Ok(outputs)
    } else {
        Err(format!("{program} ended with {status}"))
    }
}

/// A program by a path that holds in any folder; what has no '/' is looked for where commands are.
fn from_anywhere(program: &str) -> PathBuf {
    let path = if program.contains('/') { absolute(program).ok() } else { None };
    path.unwrap_or_else(|| program.into())
}

/// What a command writes to standard output, which is something, and that it ends well.
fn output_within(limit: Duration, command: Command, input: &[u8]) -> Result<Vec<u8>, String> {
    let program = command.get_program().to_string_lossy().into_owned();
    let ([output, _], status) = ended_within(limit, command, input)?;
    match output {
        _ if !status.success() => Err(format!("{program} ended with {status}")),
        output if output.is_empty() => Err(format!("{program} wrote nothing")),
        output => Ok(output),
    }
}

/// Threads of their own write the input and read what is written. That a program ends before it has read all is no fault.
fn ended_within(limit: Duration, mut command: Command, input: &[u8]) -> Result<([Vec<u8>; 2], ExitStatus), String> {
    let program = command.get_program().to_string_lossy().into_owned();
    let told = |fault: io::Error| format!("{program} does not start: {fault}");
    command.stdin(Stdio::piped()).stdout(Stdio::piped()).stderr(Stdio::piped());
    let mut child = command.spawn().map_err(told)?;
    let (mut lent, input) = (child.stdin.take().expect("piped"), input.to_vec());
    thread::spawn(move || drop(lent.write_all(&input)));
    let (output, errors) = (child.stdout.take().expect("piped"), child.stderr.take().expect("piped"));
    let (began, readers) = (Instant::now(), [reader(output), reader(errors)]);
    let outputs = readers.map(|reader| {
        let read = reader.recv_timeout(limit.saturating_sub(began.elapsed())).ok();
        read.and_then(Result::ok).filter(|read| (read.len() as u64) < MOST)
    });
    if outputs.contains(&None) {
        let _ = child.kill();
    }
    let status = child.wait().map_err(told)?;
    match outputs {
        [Some(output), Some(errors)] => Ok(([output, errors], status)),
        _ => Err(format!("{program} was not done after {limit:?}, or wrote {MOST} bytes")),
    }
}

/// A thread that reads what is written, up to some bytes.
fn reader(written: impl Read + Send + 'static) -> Receiver<io::Result<Vec<u8>>> {
    let (sender, receiver) = mpsc::channel();
    thread::spawn(move || {
        let mut read = Vec::new();
        let done = written.take(MOST).read_to_end(&mut read);
        sender.send(done.map(|_| read))
    });
    receiver
}

#[cfg(test)]
mod tests {
    use super::*;
    use crate::case::Holds;
    use std::path::Path;

    #[test]
    fn a_large_input_passes_through() {
        let input = vec![b'x'; 300_000];
        assert_eq!(output_of("cat", &input, &[]), Ok(input));
    }

    #[test]
    fn both_outputs_are_read() {
        let script = |script: &str| outputs_of("sh", None, script.as_bytes());
        assert_eq!(script("echo a; echo b >&2; exit 1"), Ok([b"a\n".to_vec(), b"b\n".to_vec()]));
        assert_eq!(script("exit"), Ok([vec![], vec![]]));
        assert!(script("exit 2").unwrap_err().contains("ended with"));
        assert!(script("kill -9 $$").unwrap_err().contains("ended with"));
        assert_eq!(outputs_of("cat", Some("-n"), b"a"), Ok([b"     1\ta".to_vec(), vec![]]));
    }

    #[test]
    fn files_are_arguments() {
        let file = |name: &str| File { name: name.into(), holds: Holds::Bytes(format!("in {name}").into()) };
        let (files, input) = ([file("-a b"), file("c\nd"), file("-a b")], b"no file");
        let output = |program| output_of(program, input, &files).map(|output| String::from_utf8(output).unwrap());
        assert_eq!(output("echo"), Ok("-a b c\nd -a b\n".to_string()));
        assert_eq!(output_of("cat", input, &[file("b a"), file("a")]), Ok(b"in b ain a".to_vec()));
        let folder = output_of("pwd", input, &[file("a")]).unwrap();
        assert!(!Path::new(String::from_utf8(folder).unwrap().trim_end()).exists());
    }

    #[test]
    fn a_program_is_found_from_anywhere() {
        let paths = ["cat", "/bin/cat", "./cat"].map(from_anywhere);
        assert_eq!(paths, ["cat".into(), "/bin/cat".into(), std::env::current_dir().unwrap().join("cat")]);
    }

    #[test]
    fn failures_are_told() {
        let fault =
            |limit, program, input: &str| output_within(limit, Command::new(program), input.as_bytes()).unwrap_err();
        assert!(fault(LIMIT, "/nowhere/at/all", "").contains("does not start"));
        assert!(fault(LIMIT, "true", "").contains("wrote nothing"));
        assert!(fault(LIMIT, "sh", "echo x; exit 3").contains("ended with"));
        assert!(fault(Duration::from_millis(200), "sh", "exec sleep 60").contains("not done after"));
    }
}
