//! How often each number was given for each kind, and which allowed ones were never given.

use std::collections::BTreeMap;
use std::io::{BufRead, Result, Write};

use crate::request::LAST_KIND;
use crate::stream::{each_command, Command, Desk, Told};

/// What is no kind is counted together under this number.
const OTHER: u64 = 0;

/// The numbers that the documents allow for a kind, each of which some book and request shows.
pub fn allowed_numbers(kind: u64) -> Vec<u64> {
    let special: &[u64] = match kind {
        1..=3 => &[0, 4, 5],
        4 => &[0, 4, 5, 7, 20, 21, 23, 24, 25, 26],
        5 => &[0, 4, 5, 7, 20, 22, 23],
        6 => &[0, 4, 5, 7, 20, 22, 27],
        7 => &[0, 4, 5, 7, 20, 21, 22, 27, 28],
        8 => &[0, 4, 5, 31, 32],
        9 => &[0, 4, 5, 29, 30, 31, 32],
        10 => &[0, 4, 5, 32],
        11 => &[0, 4, 8],
        12 => &[0, 4, 5],
        13 => &[0, 4, 8, 9, 10, 11, 33, 34],
        14 => &[0, 4],
        15..=17 => &[0, 4, 6],
        18..=21 => &[0, 4, 6, 7],
        _ => &[3],
    };
    let mut numbers = vec![1, 2];
    numbers.extend(special);
    numbers.sort();
    numbers
}

/// The arguments of which number 4 can speak, by kind.
pub fn allowed_places(kind: u64) -> &'static [u64] {
    match kind {
        1..=3 | 14 => &[1],
        4..=11 | 15..=21 => &[1, 2],
        12 => &[1, 3],
        13 => &[1, 2, 3],
        _ => &[],
    }
}

/// The numbers that the audit can give.
pub const AUDIT_NUMBERS: [u64; 13] = [0, 1, 2, 41, 42, 43, 44, 45, 46, 47, 48, 49, 50];

/// What was counted in a stream.
#[derive(Default)]
pub struct Tally {
    /// By kind and number.
    pub requests: BTreeMap<(u64, u64), u64>,
    /// By kind and x, for number 4.
    pub places: BTreeMap<(u64, u64), u64>,
    /// By number.
    pub audits: BTreeMap<u64, u64>,
}

impl Tally {
    /// Answers a stream and counts its answers.
    pub fn of(input: impl BufRead) -> Result<Tally> {
        let mut tally = Tally::default();
        let mut desk = Desk::new();
        each_command(input, |command| {
            let told = desk.carry_out(command)?;
            match (command, told) {
                (Command::Request(kind, ..), Some(Told::Answer((number, x, ..)))) => tally.add_request(kind, number, x),
                (_, Some(Told::Finding((number, ..)))) => *tally.audits.entry(number).or_default() += 1,
                _ => {}
            }
            Ok(())
        })?;
        Ok(tally)
    }

    fn add_request(&mut self, kind: u64, number: u64, x: u64) {
        let kind = if kind > LAST_KIND { OTHER } else { kind };
        *self.requests.entry((kind, number)).or_default() += 1;
        if number == 4 {
            *self.places.entry((kind, x)).or_default() += 1;
        }
    }

    /// What is allowed and never occurred, in words.
    pub fn missing(&self) -> Vec<String> {
        let mut missing = Vec::new();
        for kind in 0..=LAST_KIND {
            for number in allowed_numbers(kind).into_iter().filter(|&n| !self.requests.contains_key(&(kind, n))) {
                missing.push(format!("{} number {number}", kind_name(kind)));
            }
            for x in allowed_places(kind).iter().filter(|&&x| !self.places.contains_key(&(kind, x))) {
                missing.push(format!("{} number 4 x {x}", kind_name(kind)));
            }
        }
        for number in AUDIT_NUMBERS.iter().filter(|number| !self.audits.contains_key(number)) {
            missing.push(format!("audit {number}"));
        }
        missing
    }

    /// What occurred and is not allowed: a sign that the rules or the table of allowed numbers are wrong.
    pub fn not_allowed(&self) -> Vec<String> {
        let strange = self.requests.keys().filter(|(kind, number)| !allowed_numbers(*kind).contains(number));
        let mut found: Vec<String> =
            strange.map(|(kind, number)| format!("{} number {number}", kind_name(*kind))).collect();
        let strange = self.places.keys().filter(|(kind, x)| !allowed_places(*kind).contains(x));
        found.extend(strange.map(|(kind, x)| format!("{} number 4 x {x}", kind_name(*kind))));
        let strange = self.audits.keys().filter(|number| !AUDIT_NUMBERS.contains(number));
        found.extend(strange.map(|number| format!("audit {number}")));
        found
    }

    /// Prints the table; the last lines say what is missing.
    pub fn print(&self, output: &mut impl Write) -> Result<()> {
        for kind in (1..=LAST_KIND).chain([OTHER]) {
            write!(output, "{:8}", kind_name(kind))?;
            for (&(_, number), times) in self.requests.range((kind, 0)..=(kind, u64::MAX)) {
                write!(output, "  {number}:{times}")?;
            }
            writeln!(output)?;
        }
        writeln!(output, "number 4 by kind and x")?;
        for ((kind, x), times) in &self.places {
            write!(output, "  {kind}/{x}:{times}")?;
        }
        write!(output, "\naudit   ")?;
        for (number, times) in &self.audits {
            write!(output, "  {number}:{times}")?;
        }
        writeln!(output, "\nrequests {}", self.requests.values().sum::<u64>())?;
        writeln!(output, "audits {}", self.audits.values().sum::<u64>())?;
        let rarest = self.requests.iter().min_by_key(|(_, times)| **times);
        if let Some(((kind, number), times)) = rarest {
            writeln!(output, "rarest: {} number {number}, {times} times", kind_name(*kind))?;
        }
        print_list(output, "not allowed", &self.not_allowed())?;
        print_list(output, "missing", &self.missing())
    }
}

fn kind_name(kind: u64) -> String {
    match kind {
        OTHER => "other".to_string(),
        _ => format!("kind {kind}"),
    }
}

fn print_list(output: &mut impl Write, title: &str, entries: &[String]) -> Result<()> {
    if entries.is_empty() {
        writeln!(output, "{title}: none")?;
    }
    for entry in entries {
        writeln!(output, "{title}: {entry}")?;
    }
    Ok(())
}
