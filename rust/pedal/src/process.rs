//! The running engine: started at first use, and asked through its pipes.

use std::io::{self, BufReader, Read, Write};
use std::path::Path;
use std::process::{Child, ChildStdout, Command, Stdio};
use std::sync::{Mutex, MutexGuard, PoisonError};
use std::thread;
use std::time::Duration;

use crate::face::{Answer, Nonsense, Question};
use crate::{start, Broken};

/// The program's engine: none before the first question, while one is asked, and after trouble.
///
/// It reads the end of its input, and ends, where this program ends without a word.
static ENGINE: Mutex<Option<Engine>> = Mutex::new(None);

/// The place of the program's engine, for one thread at a time.
fn place() -> MutexGuard<'static, Option<Engine>> {
    ENGINE.lock().unwrap_or_else(PoisonError::into_inner)
}

/// How long an engine that answers no more may take to end.
const PATIENCE: Duration = Duration::from_secs(2);

/// Asks the program's engine, whose answer must have numbers that are possible.
///
/// An engine that gave trouble is ended, and the next question starts another.
pub(crate) fn ask<const N: usize>(
    question: &Question,
    possible: impl Fn(&[usize; N]) -> bool,
) -> Result<Answer<N>, Broken> {
    let mut place = place();
    let mut engine = match place.take() {
        Some(engine) => engine,
        None => Engine::usual()?,
    };
    let answer = engine.ask(question, possible)?;
    *place = Some(engine);
    Ok(answer)
}

/// Ends the program's engine, if there is one.
pub(crate) fn end() {
    drop(place().take());
}

/// A running engine.
pub(crate) struct Engine {
    /// Its path, for words.
    name: String,
    /// The process, with the pipe for questions.
    child: Child,
    /// The pipe for answers.
    answers: Option<BufReader<ChildStdout>>,
}

/// What may come between a question and its answer.
enum Fault {
    /// A pipe failed.
    Pipe(io::Error),
    /// The answer makes no sense.
    Nonsense(Nonsense),
}

impl From<io::Error> for Fault {
    /// A pipe failed.
    fn from(error: io::Error) -> Fault {
        Fault::Pipe(error)
    }
}

impl From<Nonsense> for Fault {
    /// The answer makes no sense.
    fn from(nonsense: Nonsense) -> Fault {
        Fault::Nonsense(nonsense)
    }
}

impl Engine {
    /// Starts the engine of the repository, or the one that is named instead.
    fn usual() -> Result<Engine, Broken> {
        let engine = start::engine();
        Engine::start(start::command(&engine)?, &engine)
    }

    /// Starts an engine by a command, under a name for words.
    pub(crate) fn start(mut command: Command, name: &Path) -> Result<Engine, Broken> {
        let name = name.display().to_string();
        command.stdin(Stdio::piped()).stdout(Stdio::piped());
        match command.spawn() {
            Ok(mut child) => Ok(Engine {
                name,
                answers: child.stdout.take().map(BufReader::new),
                child,
            }),
            Err(error) => Err(Broken::new(format!(
                "the engine {name} could not be started: {error}; {}",
                start::REMEDY
            ))),
        }
    }

    /// Asks a question, whose answer must have numbers that are possible.
    pub(crate) fn ask<const N: usize>(
        &mut self,
        question: &Question,
        possible: impl Fn(&[usize; N]) -> bool,
    ) -> Result<Answer<N>, Broken> {
        match self.exchange(question) {
            Ok(answer) if possible(&answer.numbers) => Ok(answer),
            Ok(_) => Err(self.trouble(Nonsense::Numbers.into())),
            Err(fault) => Err(self.trouble(fault)),
        }
    }

    /// Writes a question as a whole, then reads its answer: the engine reads all of a question
    /// before it answers, so that neither side waits for the other.
    fn exchange<const N: usize>(&mut self, question: &Question) -> Result<Answer<N>, Fault> {
        let pipe = self.child.stdin.as_mut();
        let pipe = pipe.ok_or(io::Error::from(io::ErrorKind::BrokenPipe))?;
        pipe.write_all(&question.message())?;
        pipe.flush()?;
        let mut head = [0; 8];
        self.read(&mut head)?;
        let mut bytes = vec![0; question.due(head, N)?];
        self.read(&mut bytes)?;
        Ok(question.answer(&bytes)?)
    }

    /// Fills bytes from the pipe for answers.
    fn read(&mut self, bytes: &mut [u8]) -> io::Result<()> {
        let pipe = self.answers.as_mut();
        let pipe = pipe.ok_or(io::Error::from(io::ErrorKind::UnexpectedEof))?;
        pipe.read_exact(bytes)
    }

    /// A fault in words.
    fn trouble(&mut self, fault: Fault) -> Broken {
        let words = match fault {
            Fault::Nonsense(nonsense) => nonsense.to_string(),
            Fault::Pipe(error) => match error.kind() {
                io::ErrorKind::BrokenPipe | io::ErrorKind::UnexpectedEof => {
                    format!("ended before it had answered ({})", self.ending())
                }
                _ => format!("could not be asked: {error}"),
            },
        };
        let (name, remedy) = (&self.name, start::REMEDY);
        Broken::new(format!("the engine {name} {words}; {remedy}"))
    }

    /// How the engine ended, which it does soon where nobody asks it any more.
    fn ending(&mut self) -> String {
        self.child.stdin = None;
        self.answers = None;
        let pause = Duration::from_millis(10);
        for _ in 0..PATIENCE.as_millis() / pause.as_millis() {
            match self.child.try_wait() {
                Ok(Some(status)) => return status.to_string(),
                _ => thread::sleep(pause),
            }
        }
        "its pipes are closed, and it goes on".to_string()
    }
}

impl Drop for Engine {
    /// Ends the engine, and leaves nothing of it behind.
    fn drop(&mut self) {
        let _ = self.child.kill();
        let _ = self.child.wait();
    }
}
