//! The command line.

pub const USAGE: &str = "\
usage: second [--calls N] [--seed S] [--quiet] [--no-shrink]
       second --record N --seed S --cases FILE --answers FILE
       second --shift N [--seed S] [--damaged P]
       second --replay FILE

Compares the library with a model written from the papers, on random calls.
  --calls N       how many calls to compare (1000000)
  --seed S        the seed of the random calls (1)
  --quiet         no progress on standard error
  --no-shrink     do not look for a shorter sequence when there is a difference
  --record N      write recorded cases of some N calls, answered by the model alone
  --cases FILE    where the calls go
  --answers FILE  where the answers go
  --shift N       write a record of N lines on standard output (docs/RECORD.md)
  --damaged P     one line in P of the record is damaged; 0, none, if it is not given
  --replay FILE   write the model's answers to a record on standard output; - is standard input
  --help          this text
Exit status: 0 no difference, 1 a difference, 2 a bad command line or a file that cannot be read or written.";

#[derive(Clone, Debug, Default)]
pub struct Options {
    pub calls: u64,
    pub seed: u64,
    pub quiet: bool,
    pub shrink: bool,
    pub help: bool,
    pub record: Option<u64>,
    pub cases: Option<String>,
    pub answers: Option<String>,
    pub shift: Option<u64>,
    pub damaged: Option<u64>,
    pub replay: Option<String>,
}

fn number(name: &str, text: Option<String>) -> Result<u64, String> {
    let text = text.ok_or(format!("{name} needs a number"))?;
    text.parse().map_err(|_| format!("{name}: '{text}' is no number from 0 to 18446744073709551615"))
}

fn file(name: &str, text: Option<String>) -> Result<Option<String>, String> {
    text.map(Some).ok_or(format!("{name} needs a file"))
}

impl Options {
    pub fn read(mut words: impl Iterator<Item = String>) -> Result<Options, String> {
        let mut options = Options { calls: 1_000_000, seed: 1, shrink: true, ..Options::default() };
        while let Some(word) = words.next() {
            match word.as_str() {
                "--calls" => options.calls = number(&word, words.next())?,
                "--seed" => options.seed = number(&word, words.next())?,
                "--quiet" => options.quiet = true,
                "--no-shrink" => options.shrink = false,
                "--help" => options.help = true,
                "--record" => options.record = Some(number(&word, words.next())?),
                "--cases" => options.cases = file(&word, words.next())?,
                "--answers" => options.answers = file(&word, words.next())?,
                "--shift" => options.shift = Some(number(&word, words.next())?),
                "--damaged" => options.damaged = Some(number(&word, words.next())?),
                "--replay" => options.replay = file(&word, words.next())?,
                _ => return Err(format!("unknown option '{word}'")),
            }
        }
        options.fitting()
    }

    /// Nothing is asked for that another option rules out or needs.
    fn fitting(self) -> Result<Options, String> {
        let files = self.cases.is_some() && self.answers.is_some();
        if self.record.is_some() != files || self.cases.is_some() != self.answers.is_some() {
            return Err("--record, --cases and --answers go together".into());
        }
        if self.damaged.is_some() && self.shift.is_none() {
            return Err("--damaged goes with --shift".into());
        }
        let asked = [self.record.is_some(), self.shift.is_some(), self.replay.is_some()];
        if asked.into_iter().filter(|asked| *asked).count() > 1 {
            return Err("--record, --shift and --replay go each without the others".into());
        }
        Ok(self)
    }
}
