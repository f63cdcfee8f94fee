//! The differential test: `differ [--seed N] [--inputs N] [--seconds N]`.

#![forbid(unsafe_code)]

use std::io::{self, Write};
use std::process::ExitCode;
use std::time::{Duration, Instant, SystemTime, UNIX_EPOCH};

use differ::{compare, make, Difference, Input, Stop, Tally};
use pedal::face::{self, Way};
use pedal::Broken;
use samples::Xorshift;

/// What the command line says.
struct Options {
    /// Where the random numbers begin.
    seed: u64,
    /// How many inputs to try.
    inputs: usize,
    /// After how many seconds to stop, 0 for never.
    seconds: u64,
}

/// How a run ended.
enum End {
    /// Every input was tried.
    Done,
    /// The time was up.
    Late,
    /// The two sides differ.
    Differs(Box<Difference>, Box<Input>),
    /// The proved library could not be asked.
    Broken(Broken),
}

/// How the command is used.
const USAGE: &str = "\
differ [--seed N] [--inputs N] [--seconds N]

Asks the proved library and the second opinion the same random questions and compares every answer
and every lent row. The seed is printed, so that a run can be repeated. The library is asked linked,
or through the engine where PEDAL_WAY is engine.

  --seed N     where the random numbers begin     (from the clock)
  --inputs N   how many inputs to try             (200000)
  --seconds N  when to stop, 0 for never          (120)

Exit status: 0 all inputs tried, no difference; 1 a difference; 2 bad usage; 3 the time was up
before all inputs were tried; 4 the library could not be asked.";

impl Options {
    /// The options where nothing is said.
    fn usual() -> Options {
        let clock = SystemTime::now().duration_since(UNIX_EPOCH);
        Options {
            seed: clock.map_or(1, |time| time.as_nanos() as u64),
            inputs: 200_000,
            seconds: 120,
        }
    }

    /// Reads the command line; none where it makes no sense.
    fn read(words: impl Iterator<Item = String>) -> Option<Options> {
        let mut options = Options::usual();
        let mut words = words;
        while let Some(word) = words.next() {
            let number: u64 = words.next()?.parse().ok()?;
            match word.as_str() {
                "--seed" => options.seed = number,
                "--inputs" => options.inputs = usize::try_from(number).ok()?,
                "--seconds" => options.seconds = number,
                _ => return None,
            }
        }
        Some(options)
    }

    /// Whether the time is up.
    fn is_late(&self, begin: Instant) -> bool {
        self.seconds > 0 && begin.elapsed() >= Duration::from_secs(self.seconds)
    }
}

/// Tries inputs until one of the ends, and says how many were tried.
fn run(options: &Options, begin: Instant, tally: &mut Tally) -> (usize, End) {
    let mut rng = Xorshift::spread(options.seed);
    for tried in 0..options.inputs {
        if options.is_late(begin) {
            return (tried, End::Late);
        }
        let input = make(&mut rng);
        match compare(&input, tally) {
            Ok(()) => {}
            Err(Stop::Differs(difference)) => {
                return (tried, End::Differs(difference, Box::new(input)));
            }
            Err(Stop::Broken(broken)) => return (tried, End::Broken(broken)),
        }
    }
    (options.inputs, End::Done)
}

/// A difference, with the input as Rust literals.
fn shown(difference: &Difference, input: &Input) -> String {
    format!(
        "{input}\n// {} differs\n// the library:        {:?}\n// the second opinion: {:?}\n",
        difference.question.name(),
        difference.asked,
        difference.expected
    )
}

/// What was never met in a whole run.
fn never_met(tally: &Tally) -> String {
    let names = tally.not_met().into_iter();
    names.map(|name| format!("never met: {name}\n")).collect()
}

/// How a run ended, in words and as an exit status.
fn ending(end: &End, tally: &Tally) -> (String, u8) {
    match end {
        End::Done => {
            let words = "every answer and every row the same";
            (format!("{words}\n{}", never_met(tally)), 0)
        }
        End::Late => ("no difference, but the time is up\n".to_string(), 3),
        End::Differs(difference, input) => (
            format!("then a difference:\n{}", shown(difference, input)),
            1,
        ),
        End::Broken(broken) => (format!("then no more could be asked: {broken}\n"), 4),
    }
}

/// Writes text to standard output, whether or not anybody reads it.
fn print(text: &str) {
    let _ = io::stdout().write_all(text.as_bytes());
}

/// How many questions were asked, how fast, and in which way.
fn speed(tally: &Tally, seconds: f64, way: Way) -> String {
    let total = tally.total();
    let rate = total as f64 / seconds.max(1e-9);
    format!("{total} questions, {rate:.0} a second, {way}\n")
}

/// Tries the inputs in a way and sums up.
fn try_inputs(options: &Options, way: Way) -> ExitCode {
    print(&format!("seed {}\n", options.seed));
    let begin = Instant::now();
    let mut tally = Tally::default();
    let (tried, end) = run(options, begin, &mut tally);
    let seconds = begin.elapsed().as_secs_f64();
    face::end();
    let (words, status) = ending(&end, &tally);
    print(&format!(
        "{tally}{}{tried} of {} inputs in {seconds:.1} s, seed {}: {words}",
        speed(&tally, seconds, way),
        options.inputs,
        options.seed
    ));
    ExitCode::from(status)
}

/// Does what the command line asks.
fn main() -> ExitCode {
    match (Options::read(std::env::args().skip(1)), face::way()) {
        (Some(options), Ok(way)) => try_inputs(&options, way),
        (None, _) => {
            eprintln!("{USAGE}");
            ExitCode::from(2)
        }
        (_, Err(broken)) => {
            eprintln!("differ: {broken}");
            ExitCode::from(4)
        }
    }
}
