//! The process that calls the archive.

use std::io::{self, Read, Write};
use std::process::{Child, ChildStdin, ChildStdout, Command, Stdio};

pub struct Runner {
    child: Child,
    /// Gone when the runner was told that nothing more comes.
    input: Option<ChildStdin>,
    output: ChildStdout,
}

impl Runner {
    pub fn start(command: &[String]) -> io::Result<Runner> {
        let (program, arguments) = command.split_first().ok_or(io::ErrorKind::NotFound)?;
        let mut child = Command::new(program)
            .args(arguments)
            .stdin(Stdio::piped())
            .stdout(Stdio::piped())
            .spawn()?;
        let input = child.stdin.take();
        let output = child.stdout.take().ok_or(io::ErrorKind::BrokenPipe)?;
        Ok(Runner {
            child,
            input,
            output,
        })
    }

    /// One batch, its lengths first. Nothing comes back before all is read.
    pub fn run(
        &mut self,
        given: &[u8],
        lent: &[u8],
        told: &[u64],
        back: &mut [u8],
    ) -> io::Result<()> {
        let input = self.input.as_mut().ok_or(io::ErrorKind::BrokenPipe)?;
        let mut words = Vec::with_capacity(8 * told.len());
        for word in told {
            words.extend(word.to_le_bytes());
        }
        for count in [given.len(), lent.len(), told.len()] {
            input.write_all(&(count as u64).to_le_bytes())?;
        }
        input.write_all(given)?;
        input.write_all(lent)?;
        input.write_all(&words)?;
        self.output.read_exact(back)
    }

    /// Ends it in order, and gives the numbers that it tells behind its last answer. A
    /// tool that watches it tells by the status that it met a fault.
    pub fn finish(&mut self) -> io::Result<Vec<u64>> {
        self.input = None;
        let mut told = Vec::new();
        self.output.read_to_end(&mut told)?;
        let status = self.child.wait()?;
        if !status.success() {
            return Err(io::Error::other(format!("it ended with {status}")));
        }
        let (words, rest) = told.as_chunks();
        match rest.is_empty() {
            true => Ok(words.iter().map(|word| u64::from_le_bytes(*word)).collect()),
            false => Err(io::Error::other("it ended within a number")),
        }
    }
}

impl Drop for Runner {
    fn drop(&mut self) {
        // It ended in order, or by a fault, or has to be ended.
        let _ = self.child.kill();
        let _ = self.child.wait();
    }
}
