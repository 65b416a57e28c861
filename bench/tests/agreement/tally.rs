//! What a test met: how many inputs of each kind, and how many answers of each number.

use std::collections::BTreeMap;
use std::fmt::Write as _;
use std::io::Write as _;

#[derive(Default)]
pub struct Tally {
    compared: u64,
    kinds: BTreeMap<String, u64>,
    refusals: BTreeMap<u8, u64>,
    verdicts: BTreeMap<u8, u64>,
    done: u64,
}

impl Tally {
    /// One input of this kind was compared.
    pub fn compared(&mut self, kind: impl Into<String>) {
        self.compared += 1;
        self.kind(kind);
    }

    /// Something else about the input that was compared last.
    pub fn kind(&mut self, kind: impl Into<String>) {
        self.kind_if(true, kind);
    }

    /// The same where it holds. The kind is reported even if it never does.
    pub fn kind_if(&mut self, holds: bool, kind: impl Into<String>) {
        *self.kinds.entry(kind.into()).or_default() += u64::from(holds);
    }

    /// The answer on which both agreed.
    pub fn answered<T>(&mut self, answer: Result<T, u8>) {
        match answer {
            Ok(_) => self.done += 1,
            Err(refusal) => *self.refusals.entry(refusal).or_default() += 1,
        }
    }

    pub fn verdict(&mut self, number: u8) {
        *self.verdicts.entry(number).or_default() += 1;
    }

    /// Writes the tally, past the capture of test output.
    pub fn report(&self, name: &str) {
        let mut text = format!("{name}: {} inputs compared, 0 differences\n", self.compared);
        for (kind, count) in &self.kinds {
            line(&mut text, format_args!("{kind}: {count}"));
        }
        line(&mut text, format_args!("not refused: {}", self.done));
        for (number, count) in &self.refusals {
            line(&mut text, format_args!("refusal {number}: {count}"));
        }
        for (number, count) in &self.verdicts {
            line(&mut text, format_args!("verdict {number}: {count}"));
        }
        let mut stderr = std::io::stderr().lock();
        stderr
            .write_all(text.as_bytes())
            .expect("the report is written");
    }

    /// Inputs of these kinds were met, among others.
    pub fn expect_kinds(&self, kinds: impl IntoIterator<Item = String>) {
        for kind in kinds {
            assert!(self.kinds.contains_key(&kind), "{kind} must be met");
        }
    }

    /// So many inputs of this kind were met.
    pub fn expect_at_least(&self, least: u64, kind: &str) {
        let met = self.met(kind);
        assert!(met >= least, "{kind} must be met {least} times, not {met}");
    }

    /// No more inputs of this kind were met.
    pub fn expect_at_most(&self, most: u64, kind: &str) {
        let met = self.met(kind);
        assert!(met <= most, "{kind} must be met {most} times, not {met}");
    }

    fn met(&self, kind: &str) -> u64 {
        self.kinds.get(kind).copied().unwrap_or_default()
    }

    /// Exactly these refusals were met.
    pub fn expect_refusals(&self, numbers: impl IntoIterator<Item = u8>) {
        expect_all("refusal", &self.refusals, numbers);
    }

    /// Exactly these verdicts were met.
    pub fn expect_verdicts(&self, numbers: impl IntoIterator<Item = u8>) {
        expect_all("verdict", &self.verdicts, numbers);
    }
}

fn line(text: &mut String, words: std::fmt::Arguments) {
    writeln!(text, "    {words}").expect("a string takes every line");
}

fn expect_all(name: &str, met: &BTreeMap<u8, u64>, numbers: impl IntoIterator<Item = u8>) {
    let expected: Vec<u8> = numbers.into_iter().collect();
    let met: Vec<u8> = met.keys().copied().collect();
    assert_eq!(met, expected, "each {name} must be met");
}
