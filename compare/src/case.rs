//! One case: its random numbers, the comparison of both sides, and what was compared.

use std::collections::BTreeMap;

use nathiroeng::ANSWER_WORDS;
use second::gen::recordings;
use second::rng::Rng;
use second::xlen::Xlen;

use crate::input::{Action, Input, Outcome, UNTOLD};
use crate::record;
use crate::replay::{self, Feeding, Seconds, Side};
use crate::request::{self, Ask, Reply};
use crate::show;
use crate::sides::{self, Listing};

/// A difference: the input, and what differs.
pub struct Difference {
    pub text: String,
}

impl Difference {
    /// What is wrong, in one line.
    pub fn line(text: String) -> Difference {
        Difference { text: text + "\n" }
    }
}

/// What has been compared so far.
#[derive(Default)]
pub struct Counts {
    /// Comparisons of whole outcomes.
    pub compared: u64,
    /// How often each code was given.
    pub codes: BTreeMap<i64, u64>,
}

/// The case that is run.
pub struct Case<'a> {
    pub rng: Rng,
    /// The width of the harts.
    pub xlen: Xlen,
    pub index: u64,
    pub counts: &'a mut Counts,
    /// Whether every input and outcome is printed.
    pub is_shown: bool,
}

impl Case<'_> {
    /// Runs both sides and compares them; gives the outcome that they agree on.
    pub fn check(&mut self, input: &Input) -> Result<Outcome, Difference> {
        if self.is_shown {
            print!("{}", show::input(input));
        }
        let ours = sides::ours(input);
        let seconds = sides::seconds(input);
        if self.is_shown {
            print!("{}", show::outcome("ours", input, &ours));
            print!("{}", show::outcome("second", input, &seconds));
        }
        self.counts.compared += 1;
        *self.counts.codes.entry(seconds.code).or_default() += 1;
        let lines = ours.differences(&seconds);
        if lines.is_empty() {
            self.check_count(input, &ours)?;
            return Ok(ours);
        }
        Err(Difference { text: format!("{}{}\n", show::input(input), lines.join("\n")) })
    }

    /// What the papers say of every outcome: the count of dropped writes grows by the number of reports
    /// and stays at 2^32-1, and a refusal has none. The reports are words at the start of their buffer.
    fn check_count(&self, input: &Input, outcome: &Outcome) -> Result<(), Difference> {
        let is_fresh = matches!(input.action, Action::Fresh { .. });
        if is_fresh || outcome.answer.len() != ANSWER_WORDS || input.words.len() != record::WORDS {
            return Ok(());
        }
        let (count, room) = (outcome.report_count(), outcome.reports.len());
        self.hold(outcome.code == 0 || count == 0, || "a refusal with reports".to_string())?;
        let [before, after] = [&input.words, &outcome.words].map(|words| words[record::DROPPED]);
        let most = u64::from(u32::MAX).max(before);
        let counted = most.min(before.saturating_add(count as u64));
        self.hold(after == counted, || format!("{count} reports, count {before} to {after}"))?;
        let (said, behind) = outcome.reports.split_at(room.min(2 * count));
        let is_report = |pair: &[u64]| pair[0] < 0x1000 && pair.get(1) != Some(&0);
        self.hold(said.chunks(2).all(is_report), || format!("reports {said:x?}"))?;
        self.hold(behind.iter().all(|&word| word == UNTOLD), || format!("behind them {behind:x?}"))
    }

    /// Compares both listings of an image in a place of limited room.
    pub fn check_listing(&mut self, image: &[u8], room: usize) -> Result<Listing, Difference> {
        let ours = sides::our_listing(image, room);
        let seconds = sides::seconds_listing(image, room);
        if self.is_shown || ours != seconds {
            let text = format!(
                "{}{}{}",
                show::image(image, room),
                show::listing("ours", &ours),
                show::listing("second", &seconds)
            );
            if ours != seconds {
                return Err(Difference { text });
            }
            print!("{text}");
        }
        self.counts.compared += 1;
        Ok(ours)
    }

    /// Compares both turns of a number at the width with so many bits.
    pub fn check_lookup(&mut self, bits: u64, number: u64) -> Result<(), Difference> {
        let ours = sides::our_turn(bits, number);
        let seconds = sides::seconds_turn(bits, number);
        if self.is_shown || ours != seconds {
            let text = format!(
                "{}{}{}",
                show::lookup(bits, number),
                show::turn("ours", ours),
                show::turn("second", seconds)
            );
            if ours != seconds {
                return Err(Difference { text });
            }
            print!("{text}");
        }
        self.counts.compared += 1;
        Ok(())
    }

    /// Compares both replies to a request; gives the one that they agree on.
    pub fn check_request(&mut self, ask: &Ask) -> Result<Reply, Difference> {
        let ours = request::ours(ask);
        let seconds = request::seconds(ask);
        if self.is_shown || ours != seconds {
            let text = format!(
                "{}{}{}",
                show::ask(ask),
                show::reply("ours", ask, &ours),
                show::reply("second", ask, &seconds)
            );
            if ours != seconds {
                return Err(Difference { text });
            }
            print!("{text}");
        }
        self.counts.compared += 1;
        *self.counts.codes.entry(seconds.told.min(0)).or_default() += 1;
        Ok(ours)
    }

    /// Feeds both sides with a recording in parts and compares them after each part, also with what
    /// they would say if the recording ended there; then all lines with those of the second program's
    /// replay of the whole. Gives the lines.
    pub fn check_feeding(&mut self, feeding: &Feeding) -> Result<Vec<u8>, Difference> {
        if self.is_shown {
            print!("{}", show::feeding(feeding));
        }
        let found = |place: usize, lines: Vec<String>| Difference {
            text: format!("{}after part {place}:\n{}\n", show::feeding(feeding), lines.join("\n")),
        };
        let (mut ours, mut seconds) = (replay::ours(feeding.room), Seconds::default());
        let (mut text, mut ending) = (Vec::new(), Vec::new());
        for (place, part) in (1..).zip(recordings::parts(feeding.bytes, feeding.cuts)) {
            let done = ours.feed(part).and_then(|_| ours.view());
            let ours = done.map_err(|fault| found(place, vec![fault]))?;
            let view = seconds.feed(part).and_then(|_| seconds.view());
            let view = view.map_err(|fault| found(place, vec![fault]))?;
            if ours != view {
                return Err(found(place, ours.differences(&view)));
            }
            text.extend_from_slice(view.lines);
            ending = view.ending;
            self.counts.compared += 1;
        }
        text.extend(ending);
        if self.is_shown {
            print!("{}", String::from_utf8_lossy(&text));
        }
        self.count_lines(&text);
        self.hold(text == second::replay::replayed(feeding.bytes), || "all lines".to_string())?;
        Ok(text)
    }

    /// Counts the codes of a replay's lines.
    pub fn count_lines(&mut self, text: &[u8]) {
        for line in String::from_utf8_lossy(text).lines() {
            if let Some(code) = line.split(' ').nth(2).and_then(|word| word.parse().ok()) {
                *self.counts.codes.entry(code).or_default() += 1;
            }
        }
    }

    /// Compares as `check_request` does, and then with the value or code that the papers name.
    pub fn expect_request(&mut self, ask: &Ask, told: i64) -> Result<Reply, Difference> {
        let reply = self.check_request(ask)?;
        self.hold(reply.told == told, || format!("{} and not {told}", reply.told))?;
        let quiet = told >= 0 || reply.page == ask.page;
        self.hold(quiet, || "a refusal that changes a byte".to_string())?;
        Ok(reply)
    }

    /// Compares as `check` does, and then with the code that the papers name.
    pub fn expect(&mut self, input: &Input, code: i64) -> Result<Outcome, Difference> {
        let outcome = self.check(input)?;
        self.hold(outcome.code == code, || format!("code {} and not {code}", outcome.code))?;
        if code != 0 && !matches!(input.action, Action::Fresh { .. }) {
            let same = outcome.words == input.words
                && outcome.memory == input.memory
                && outcome.table == input.table;
            let quiet = outcome.answer.iter().all(|&word| word == 0)
                && outcome.reports.iter().all(|&word| word == UNTOLD);
            self.hold(same && quiet, || "a refusal that changes something".to_string())?;
        }
        Ok(outcome)
    }

    /// A difference from the papers where the condition does not hold.
    pub fn hold(&self, holds: bool, text: impl Fn() -> String) -> Result<(), Difference> {
        if holds {
            Ok(())
        } else {
            Err(Difference { text: format!("not as in the papers: {}\n", text()) })
        }
    }
}
