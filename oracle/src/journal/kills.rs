//! What must hold of a bench with a journal that was killed: of its answers, and of the file that it leaves.
use super::generator::Asked;
use super::read_into;
use super::serve::READ;
use crate::rules::MOST_RECORDS;

/// A run of the bench on a file that held a journal.
pub struct Run<'a> {
    /// The file before.
    pub before: &'a [u8],
    /// So much of it is kept.
    pub kept: usize,
    pub asked: &'a [Asked],
    /// What it wrote, perhaps with a last line that is cut.
    pub answers: &'a [u8],
    /// The file after.
    pub after: &'a [u8],
}

/// How many lines were answered, how many of those are in the file, and how many more; how much is left out of it.
#[derive(Default)]
pub struct Counts {
    pub answered: usize,
    pub written: usize,
    pub beyond: usize,
    pub left_out: usize,
}

impl Run<'_> {
    /// Says what is wrong.
    pub fn judge(&self) -> Result<Counts, String> {
        let answered = self.judge_answers()?;
        let due = self.length(answered);
        if self.after == self.before && due == self.kept {
            return Ok(Counts {
                answered,
                ..Counts::default()
            });
        }
        self.judge_bytes()?;
        if self.after.len() < due {
            let lost = (0..answered).find(|&i| self.length(i + 1) > self.after.len());
            let lost = lost.map_or(String::new(), |i| self.line(i));
            return Err(format!("answered, but not in the file: {lost}"));
        }
        let reached = (answered..)
            .find(|&i| self.length(i) >= self.after.len())
            .expect("a prefix");
        self.judge_beyond(answered, reached)?;
        let left_out = self.judge_kept()?;
        let written = |asked: &&Asked| !asked.written.is_empty();
        Ok(Counts {
            answered,
            written: self.asked[..answered].iter().filter(written).count(),
            beyond: self.asked[answered..reached].iter().filter(written).count(),
            left_out,
        })
    }

    /// How long the file is after so many lines.
    fn length(&self, lines: usize) -> usize {
        self.kept
            + self.asked[..lines]
                .iter()
                .map(|asked| asked.written.len())
                .sum::<usize>()
    }

    fn line(&self, i: usize) -> String {
        format!("line {}, {}", i + 1, self.asked[i].line.escape_ascii())
    }

    /// "The answers that were given" are the oracle's. Answers how many there are.
    fn judge_answers(&self) -> Result<usize, String> {
        let mut answered = 0;
        for got in self.answers.split_inclusive(|&byte| byte == b'\n') {
            let Some(asked) = self.asked.get(answered) else {
                return Err("more answers than lines".into());
            };
            let expected = format!("{}\n", asked.answer);
            if !expected.as_bytes().starts_with(got) {
                let got = got.escape_ascii();
                return Err(format!(
                    "{}: {got} for {}",
                    self.line(answered),
                    asked.answer
                ));
            }
            answered += usize::from(got.ends_with(b"\n"));
        }
        Ok(answered)
    }

    /// The file holds what was kept, and then what the lines write, in their order, up to some byte.
    fn judge_bytes(&self) -> Result<(), String> {
        let lines = self.asked.iter().flat_map(|asked| &asked.written);
        let mut expected = self.before[..self.kept].iter().chain(lines);
        let wrong = self
            .after
            .iter()
            .position(|byte| expected.next() != Some(byte));
        wrong.map_or(Ok(()), |at| {
            let lines = (0..self.asked.len()).find(|&i| self.length(i + 1) > at);
            let whose = lines.map_or("none".to_string(), |i| self.line(i));
            Err(format!(
                "byte {at} of the file, {} kept: {whose}",
                self.kept
            ))
        })
    }

    /// What is in the file and was not answered stood in one read: the ends of those lines lie as near as that.
    fn judge_beyond(&self, answered: usize, reached: usize) -> Result<(), String> {
        let ends = |lines: &[Asked]| {
            lines
                .iter()
                .map(|asked| asked.line.len() + 1)
                .sum::<usize>()
        };
        if reached > answered && ends(&self.asked[answered + 1..reached]) >= READ {
            return Err(format!(
                "{} is in the file, and {answered} lines are answered",
                self.line(reached - 1)
            ));
        }
        Ok(())
    }

    /// The second reading of the file keeps all of it up to the last place where no patch is open. Answers what it leaves out.
    fn judge_kept(&self) -> Result<usize, String> {
        let closed = |i: usize| i == 0 || !self.asked[i - 1].open;
        let here = |&i: &usize| self.length(i) <= self.after.len() && closed(i);
        let last = (0..=self.asked.len())
            .rev()
            .find(here)
            .expect("the first is here");
        let reading = read_into(MOST_RECORDS, self.after);
        if reading.damage.is_some() || reading.kept != self.length(last) {
            let (kept, damage) = (reading.kept, reading.damage);
            return Err(format!(
                "the file keeps {kept} for {}, damage {damage:?}",
                self.length(last)
            ));
        }
        Ok(reading.at - reading.kept)
    }
}
