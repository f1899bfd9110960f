//! How often each status occurred, and how often each rule was broken.

use std::collections::BTreeMap;
use std::io::{stderr, Write};

use zelmotar_model::random;

use crate::case::Ran;

/// Every number that a call can be answered with.
pub const CALL_STATUSES: [u32; 8] = [0, 10, 11, 12, 13, 14, 15, 16];

/// Every number that a batch can be answered with.
pub const BATCH_STATUSES: [u32; 6] = [0, 1, 2, 3, 4, 5];

/// Every number that a print can be answered with.
pub const PRINT_STATUSES: [u32; 7] = [0, 1, 2, 3, 20, 21, 22];

/// Every number that a text typed in can be answered with, but for 24: that is for texts far longer than the
/// random ones.
pub const TYPE_STATUSES: [u32; 9] = [0, 1, 2, 3, 13, 16, 20, 21, 23];

/// Every number that a save can be answered with.
pub const SAVE_STATUSES: [u32; 5] = [0, 1, 2, 3, 22];

/// Every number that a load can be answered with.
pub const LOAD_STATUSES: [u32; 8] = [0, 3, 30, 31, 32, 33, 34, 35];

/// Every rule that a cell can break.
pub const RULES: [u32; 6] = [1, 2, 3, 4, 5, 6];

/// Every rule that a cell of a file can break, as none of them is beyond `top`.
pub const FILE_RULES: [u32; 5] = [1, 2, 3, 4, 5];

/// Each number with its count.
fn listed(counts: &BTreeMap<u32, usize>) -> String {
    counts.iter().map(|(status, count)| format!(" {status}:{count}")).collect()
}

/// Each name with its count.
fn named(counts: &BTreeMap<&str, usize>) -> String {
    counts.iter().map(|(name, count)| format!("; {name}: {count}")).collect()
}

/// Says a line. The test harness keeps back what `println` writes, so this goes to the standard error
/// itself. A closed one is no reason to fail.
fn say(name: &str, what: &str) {
    let line = format!("{name}: seed {}, {what}\n", random::seed());
    let _ = stderr().write_all(line.as_bytes());
}

/// Counts of prints by status, and of those where a bracket was one too many at a byte that would not
/// have fit either.
#[derive(Default)]
pub struct Prints {
    statuses: BTreeMap<u32, usize>,
    both: usize,
}

impl Prints {
    /// Counts one print.
    pub fn add(&mut self, status: u32, both: bool) {
        *self.statuses.entry(status).or_default() += 1;
        self.both += usize::from(both);
    }

    /// Prints the counts.
    pub fn print(&self, name: &str) {
        let (count, both) = (self.statuses.values().sum::<usize>(), self.both);
        say(
            name,
            &format!("{count} prints;{}; 21 and 22 at one byte: {both}", listed(&self.statuses)),
        );
    }

    /// Asserts that each of the given statuses did occur, and 21 and 22 at one byte if 21 is given.
    pub fn assert_met(&self, statuses: &[u32]) {
        for status in statuses {
            assert!(self.statuses.contains_key(status), "no print was answered {status}");
        }
        assert!(self.both > 0 || !statuses.contains(&21), "21 and 22 never met");
    }
}

/// Counts of texts typed in by status, and of those that are done in a store that was collected for them.
#[derive(Default)]
pub struct Types {
    statuses: BTreeMap<u32, usize>,
    collected: usize,
}

impl Types {
    /// Counts one text.
    pub fn add(&mut self, status: u32, collected: bool) {
        *self.statuses.entry(status).or_default() += 1;
        self.collected += usize::from(status == 0 && collected);
    }

    /// Prints the counts.
    pub fn print(&self, name: &str) {
        let (count, collected) = (self.statuses.values().sum::<usize>(), self.collected);
        let statuses = listed(&self.statuses);
        say(name, &format!("{count} texts typed in;{statuses}; collected, then done: {collected}"));
    }

    /// Asserts that each of the given statuses occurred so many times, and a collection before a text that
    /// is done if 16 is given.
    pub fn assert_met(&self, statuses: &[u32], least: usize) {
        for status in statuses {
            let count = *self.statuses.get(status).unwrap_or(&0);
            assert!(count >= least, "{count} texts were answered {status}");
        }
        assert!(self.collected >= least || !statuses.contains(&16), "{} collected", self.collected);
    }
}

/// Counts of texts in pieces, by how they are made or cut and by status.
#[derive(Default)]
pub struct Texts(BTreeMap<&'static str, BTreeMap<u32, usize>>);

impl Texts {
    /// Counts one text under a name.
    pub fn add(&mut self, name: &'static str, status: u32) {
        *self.0.entry(name).or_default().entry(status).or_default() += 1;
    }

    /// Prints the counts.
    pub fn print(&self, name: &str) {
        let count = self.0.values().flat_map(BTreeMap::values).sum::<usize>();
        let names = self.0.iter().map(|(name, counts)| format!("; {name}{}", listed(counts)));
        say(name, &format!("{count} texts in pieces{}", names.collect::<String>()));
    }

    /// Asserts that texts of a name were answered each of the given statuses so many times.
    pub fn assert_met(&self, name: &str, statuses: &[u32], least: usize) {
        for status in statuses {
            let count = self.0.get(name).and_then(|counts| counts.get(status)).unwrap_or(&0);
            assert!(*count >= least, "{name}: {count} were answered {status}");
        }
    }
}

/// Counts of calls and texts on nearly full stores, by what is asked and by what comes of it.
#[derive(Default)]
pub struct Rooms {
    asked: BTreeMap<&'static str, usize>,
    came: BTreeMap<&'static str, usize>,
}

impl Rooms {
    /// Counts a call or a text, and what came of it, which may have several names.
    pub fn add(&mut self, asked: &'static str, came: &[&'static str]) {
        *self.asked.entry(asked).or_default() += 1;
        for name in came {
            *self.came.entry(name).or_default() += 1;
        }
    }

    /// Prints the counts.
    pub fn print(&self, name: &str) {
        let count = self.asked.values().sum::<usize>();
        let (asked, came) = (named(&self.asked), named(&self.came));
        say(name, &format!("{count} calls and texts{asked}{came}"));
    }

    /// Asserts that each of the given was asked, or did come, so many times.
    pub fn assert_met(&self, names: &[&str], least: usize) {
        for name in names {
            let count = self.asked.get(name).or(self.came.get(name)).unwrap_or(&0);
            assert!(*count >= least, "{name}: {count}");
        }
    }
}

/// Counts of files saved or loaded by their kind and status, and by what more is to be said of them.
#[derive(Default)]
pub struct Files {
    kinds: BTreeMap<&'static str, BTreeMap<u32, usize>>,
    came: BTreeMap<&'static str, usize>,
}

impl Files {
    /// Counts one file of a kind, and what came of it, which may have several names.
    pub fn add(&mut self, kind: &'static str, status: u32, came: &[&'static str]) {
        *self.kinds.entry(kind).or_default().entry(status).or_default() += 1;
        for name in came {
            *self.came.entry(name).or_default() += 1;
        }
    }

    /// Prints the counts.
    pub fn print(&self, name: &str) {
        let count = self.kinds.values().flat_map(BTreeMap::values).sum::<usize>();
        let kinds = self.kinds.iter().map(|(kind, counts)| format!("; {kind}{}", listed(counts)));
        let (kinds, came) = (kinds.collect::<String>(), named(&self.came));
        say(name, &format!("{count} files{kinds}{came}"));
    }

    /// Asserts that files of a kind were answered each of the given statuses so many times.
    pub fn assert_met(&self, kind: &str, statuses: &[u32], least: usize) {
        for status in statuses {
            let count = self.kinds.get(kind).and_then(|counts| counts.get(status)).unwrap_or(&0);
            assert!(*count >= least, "{kind}: {count} were answered {status}");
        }
    }

    /// Asserts that each of the given names occurred so many times.
    pub fn assert_came(&self, names: &[&str], least: usize) {
        for name in names {
            let count = *self.came.get(name).unwrap_or(&0);
            assert!(count >= least, "{name}: {count}");
        }
    }
}

/// Counts of damaged cells by where they stand and by the rule that they break.
#[derive(Default)]
pub struct Rules(BTreeMap<&'static str, BTreeMap<u32, usize>>);

impl Rules {
    /// Counts one cell.
    pub fn add(&mut self, place: &'static str, rule: u32) {
        *self.0.entry(place).or_default().entry(rule).or_default() += 1;
    }

    /// Prints the counts.
    pub fn print(&self, name: &str) {
        let count = self.0.values().flat_map(BTreeMap::values).sum::<usize>();
        let places = self.0.iter().map(|(place, rules)| format!("; {place}{}", listed(rules)));
        say(name, &format!("{count} cells{}", places.collect::<String>()));
    }

    /// Asserts that cells of a place broke each of the given rules so many times, and no other.
    pub fn assert_met(&self, place: &str, rules: &[u32], least: usize) {
        let met = self.0.get(place).unwrap_or(&BTreeMap::new()).clone();
        assert!(met.keys().eq(rules), "{place}: {met:?}");
        assert!(met.values().all(|&count| count >= least), "{place}: {met:?}");
    }
}

/// Counts of cases, and of batches, calls, texts typed in, stores saved and files loaded by status; and of the
/// rules that are broken, in stores and in files.
#[derive(Default)]
pub struct Tally {
    cases: usize,
    batches: BTreeMap<u32, usize>,
    calls: BTreeMap<u32, usize>,
    texts: BTreeMap<u32, usize>,
    saves: BTreeMap<u32, usize>,
    loads: BTreeMap<u32, usize>,
    rules: BTreeMap<u32, usize>,
    file_rules: BTreeMap<u32, usize>,
}

impl Tally {
    /// Counts one case and what all that is in it was answered.
    pub fn add(&mut self, ran: &Ran) {
        self.cases += 1;
        *self.batches.entry(ran.status).or_default() += 1;
        for &status in &ran.statuses {
            *self.calls.entry(status).or_default() += 1;
        }
        for &(status, _) in &ran.texts {
            *self.texts.entry(status).or_default() += 1;
        }
        for (counts, answer) in [(&mut self.saves, ran.saved), (&mut self.loads, ran.loaded)] {
            if let Some((status, ..)) = answer {
                *counts.entry(status).or_default() += 1;
            }
        }
        let in_file = ran.loaded.map_or(0, |(_, rule, _)| rule);
        for (counts, rule) in [(&mut self.rules, ran.rule), (&mut self.file_rules, in_file)] {
            if rule != 0 {
                *counts.entry(rule).or_default() += 1;
            }
        }
    }

    /// Prints the counts.
    pub fn print(&self, name: &str) {
        let counted = [
            ("batches", &self.batches),
            ("calls", &self.calls),
            ("texts", &self.texts),
            ("saves", &self.saves),
            ("loads", &self.loads),
            ("rules", &self.rules),
            ("rules in files", &self.file_rules),
        ];
        let met = counted.iter().filter(|(_, counts)| !counts.is_empty());
        let met = met.map(|(name, counts)| format!("; {name}{}", listed(counts)));
        say(name, &format!("{} cases{}", self.cases, met.collect::<String>()));
    }

    /// Asserts that each of the given statuses did occur.
    pub fn assert_met(&self, batches: &[u32], calls: &[u32], texts: &[u32]) {
        for status in batches {
            assert!(self.batches.contains_key(status), "no batch was answered {status}");
        }
        for status in calls {
            assert!(self.calls.contains_key(status), "no call was answered {status}");
        }
        for status in texts {
            assert!(self.texts.contains_key(status), "no text was answered {status}");
        }
    }

    /// Asserts that each of the given statuses did occur when a store was saved or a file loaded.
    pub fn assert_met_in_files(&self, saves: &[u32], loads: &[u32]) {
        for status in saves {
            assert!(self.saves.contains_key(status), "no save was answered {status}");
        }
        for status in loads {
            assert!(self.loads.contains_key(status), "no load was answered {status}");
        }
    }

    /// Asserts that each of the given rules was broken, in a store or in a file.
    pub fn assert_broken(&self, stores: &[u32], files: &[u32]) {
        for rule in stores {
            assert!(self.rules.contains_key(rule), "no store broke rule {rule}");
        }
        for rule in files {
            assert!(self.file_rules.contains_key(rule), "no file broke rule {rule}");
        }
    }
}
