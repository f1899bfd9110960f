//! One store with one call list and one answer space, run by the library and by the model.

use std::fmt;

use zelmotar::{raw, Store};
use zelmotar_model::{files, plain, random};

use crate::guarded::Guarded;
use crate::shrink::{lessened, shrunk};

/// The sixteen bytes that the text of a case is made of. Any bytes would be refused at the first of them as
/// a rule.
const LETTERS: [u8; 16] = *b"(0123456789) () ";

/// What goes into the nine functions of the library on stores and files. The answer space serves as text space
/// too, four bytes a word, as the space that the store is saved into, and as the file that is loaded into its
/// words. Those bytes up to the first 255 are the text that is typed in, each for one of [`LETTERS`].
#[derive(Clone, Debug)]
pub struct Case {
    pub words: Vec<u32>,
    pub top: usize,
    pub calls: Vec<u32>,
    pub answers: Vec<u32>,
    pub register: usize,
}

/// What is answered of a store or of a file: the status, the rule and the value.
pub type Told = (u32, u32, u32);

/// What a batch was answered, by library and model alike.
#[derive(Debug)]
pub struct Ran {
    pub status: u32,
    pub rule: u32,
    pub value: u32,
    /// The status of each call; none if the batch is refused.
    pub statuses: Vec<u32>,
    /// Whether `top` is lower than before, so that a collection freed cells.
    pub freed: bool,
    /// The status and the value of each text that is typed in.
    pub texts: Vec<(u32, usize)>,
    /// What is answered when the store is saved.
    pub saved: Option<Told>,
    /// What is answered when the file is loaded.
    pub loaded: Option<Told>,
}

/// The reply of the model in the library's type.
fn as_library(reply: plain::Reply) -> raw::Reply {
    let plain::Reply { status, rule, value, top } = reply;
    raw::Reply { status, rule, value, top }
}

/// Says where two replies differ.
fn same_reply(entry: &str, library: raw::Reply, model: plain::Reply) -> Result<(), String> {
    let model = as_library(model);
    match library == model {
        true => Ok(()),
        false => Err(format!("{entry}: the library answers {library:?}, the model {model:?}")),
    }
}

/// Says where two word lists differ.
fn same_words(entry: &str, library: &[u32], model: &[u32]) -> Result<(), String> {
    match library.iter().zip(model).position(|(ours, theirs)| ours != theirs) {
        None => Ok(()),
        Some(i) => Err(format!(
            "{entry}: word {i} (cell {}) is {} after the library and {} after the model",
            i / 2,
            library[i],
            model[i]
        )),
    }
}

/// Says where two byte lists differ.
fn same_bytes(entry: &str, library: &[u8], model: &[u8]) -> Result<(), String> {
    match library.iter().zip(model).position(|(ours, theirs)| ours != theirs) {
        None => Ok(()),
        Some(i) => Err(format!(
            "{entry}: byte {i} is {} by the library and {} by the model",
            library[i], model[i]
        )),
    }
}

/// Prints a register by the library and by the model, and says what differs first; else gives what both
/// answer. Where there is a text, it is what the terms of a look are written as.
pub fn compare_print(
    words: &[u32],
    top: usize,
    register: usize,
    space: &[u8],
) -> Result<plain::Text, String> {
    let (mut ours, mut our_space) = (Guarded::around(words), Guarded::around(space));
    let mut their_space = space.to_vec();
    let raw::Text { status, rule, value, length } =
        raw::print(ours.lent(), top, register, our_space.lent());
    let library = plain::Text { status, rule, value, length };
    let model = plain::print(words, top, register, &mut their_space);
    if library != model {
        return Err(format!("print: the library answers {library:?}, the model {model:?}"));
    }
    let our_space = our_space.opened("text space of print")?;
    same_bytes("print", &our_space, &their_space)?;
    let looked = match status {
        0 => Store::from_parts(ours.lent(), top).look(register).to_string(),
        _ => String::new(),
    };
    if looked.as_bytes() != &our_space[..length] {
        return Err(format!("print: the terms of a look are written as {looked}"));
    }
    same_words("print", &ours.opened("print")?, words)?;
    Ok(model)
}

/// Types a text into a register by the library and by the model, and says what differs first; else gives what
/// both answer.
pub fn compare_type(
    words: &[u32],
    top: usize,
    register: usize,
    text: &[u8],
) -> Result<plain::Typed, String> {
    let (mut ours, mut our_text) = (Guarded::around(words), Guarded::around(text));
    let mut theirs = words.to_vec();
    let raw::Typed { status, rule, value, top: new_top } =
        raw::type_in(ours.lent(), top, register, our_text.lent());
    let library = plain::Typed { status, rule, value, top: new_top };
    let model = plain::type_in(&mut theirs, top, register, text);
    if library != model {
        return Err(format!("type: the library answers {library:?}, the model {model:?}"));
    }
    same_words("type", &ours.opened("type")?, &theirs)?;
    match our_text.opened("text of type")? == text {
        true => Ok(model),
        false => Err("type: the text is written, and not only read".to_string()),
    }
}

/// Saves a store by the library and by the model, and says what differs first; else gives what both answer,
/// with the words and the bytes that they leave.
pub fn compare_save(
    words: &[u32],
    top: usize,
    space: &[u8],
) -> Result<(files::Saved, Vec<u32>, Vec<u8>), String> {
    let (mut ours, mut our_space) = (Guarded::around(words), Guarded::around(space));
    let (mut theirs, mut their_space) = (words.to_vec(), space.to_vec());
    let raw::Saved { status, rule, value, top: new_top, length } =
        raw::save(ours.lent(), top, our_space.lent());
    let library = files::Saved { status, rule, value, top: new_top, length };
    let model = files::save(&mut theirs, top, &mut their_space);
    if library != model {
        return Err(format!("save: the library answers {library:?}, the model {model:?}"));
    }
    same_bytes("save", &our_space.opened("space of save")?, &their_space)?;
    same_words("save", &ours.opened("save")?, &theirs)?;
    Ok((model, theirs, their_space))
}

/// Loads a file by the library and by the model, and says what differs first; else gives what both answer, with
/// the words that they leave.
pub fn compare_load(words: &[u32], file: &[u8]) -> Result<(plain::Reply, Vec<u32>), String> {
    let (mut ours, mut our_file) = (Guarded::around(words), Guarded::around(file));
    let mut theirs = words.to_vec();
    let library = raw::load(ours.lent(), our_file.lent());
    let model = files::load(&mut theirs, file);
    same_reply("load", library, model)?;
    same_words("load", &ours.opened("load")?, &theirs)?;
    match our_file.opened("file of load")? == file {
        true => Ok((model, theirs)),
        false => Err("load: the file is written, and not only read".to_string()),
    }
}

impl Case {
    /// Runs the case through all nine functions, and says what differs first.
    pub fn compare(&self) -> Result<Ran, String> {
        self.compare_check()?;
        self.compare_fresh()?;
        self.compare_look()?;
        self.compare_collect()?;
        let space: Vec<u8> = self.answers.iter().flat_map(|word| word.to_le_bytes()).collect();
        compare_print(&self.words, self.top, self.register, &space)?;
        let letters = space.iter().take_while(|&&byte| byte != 255);
        let text: Vec<u8> = letters.map(|byte| LETTERS[usize::from(byte % 16)]).collect();
        let typed = compare_type(&self.words, self.top, self.register, &text)?;
        let (saved, ..) = compare_save(&self.words, self.top, &space)?;
        let (loaded, _) = compare_load(&self.words, &space)?;
        Ok(Ran {
            texts: vec![(typed.status, typed.value)],
            saved: Some((saved.status, saved.rule, saved.value)),
            loaded: Some((loaded.status, loaded.rule, loaded.value)),
            ..self.compare_run()?
        })
    }

    /// Runs the case and fails with a small version of it if anything differs.
    pub fn hold(&self) -> Ran {
        self.compare().unwrap_or_else(|_| {
            let small = self.with_fewer_calls().with_less_in_store().with_fewer_calls();
            let difference = small.compare().err().unwrap_or_default();
            panic!("{difference}\n{small}");
        })
    }

    /// The case with as few calls as still differ.
    fn with_fewer_calls(&self) -> Case {
        let with = |calls: &[&[u32]]| Case { calls: calls.concat(), ..self.clone() };
        let calls: Vec<&[u32]> = self.calls.chunks(4).collect();
        with(&shrunk(&calls, |calls| with(calls).compare().is_err()))
    }

    /// The case with as little in its store as still differs.
    fn with_less_in_store(self) -> Case {
        let with = |words: &[u32], top| Case { words: words.to_vec(), top, ..self.clone() };
        let differs = |words: &[u32], top| with(words, top).compare().is_err();
        let (words, top) = lessened(&self.words, self.top, differs);
        with(&words, top)
    }

    fn compare_check(&self) -> Result<(), String> {
        let mut ours = Guarded::around(&self.words);
        same_reply(
            "check",
            raw::check(ours.lent(), self.top),
            plain::check(&self.words, self.top),
        )?;
        same_words("check", &ours.opened("check")?, &self.words)
    }

    fn compare_fresh(&self) -> Result<(), String> {
        let (mut ours, mut theirs) = (Guarded::around(&self.words), self.words.clone());
        same_reply("fresh", raw::fresh(ours.lent()), plain::fresh(&mut theirs))?;
        same_words("fresh", &ours.opened("fresh")?, &theirs)
    }

    fn compare_look(&self) -> Result<(), String> {
        let mut ours = Guarded::around(&self.words);
        let span = raw::look(ours.lent(), self.top, self.register);
        let (from, to) = plain::look(&self.words, self.top, self.register);
        if (span.from, span.to) != (from, to) {
            return Err(format!("look: the library answers {span:?}, the model {from} to {to}"));
        }
        same_words("look", &ours.opened("look")?, &self.words)
    }

    fn compare_collect(&self) -> Result<(), String> {
        let (mut ours, mut theirs) = (Guarded::around(&self.words), self.words.clone());
        let library = raw::collect(ours.lent(), self.top);
        same_reply("collect", library, plain::collect(&mut theirs, self.top))?;
        same_words("collect", &ours.opened("collect")?, &theirs)
    }

    fn compare_run(&self) -> Result<Ran, String> {
        let (mut ours, mut theirs) = (Guarded::around(&self.words), self.words.clone());
        let (mut our_answers, mut their_answers) =
            (Guarded::around(&self.answers), self.answers.clone());
        let mut calls = Guarded::around(&self.calls);
        let library = raw::run(ours.lent(), self.top, calls.lent(), our_answers.lent());
        let model = plain::run(&mut theirs, self.top, &self.calls, &mut their_answers);
        same_words("answers of run", &our_answers.opened("answers of run")?, &their_answers)?;
        same_reply("run", library, model)?;
        same_words("run", &ours.opened("run")?, &theirs)?;
        same_words("calls of run", &calls.opened("calls of run")?, &self.calls)?;
        Ok(self.ran(model, &their_answers))
    }

    fn ran(&self, reply: plain::Reply, answers: &[u32]) -> Ran {
        let count = if reply.status == 0 { self.calls.len() / 4 } else { 0 };
        Ran {
            status: reply.status,
            rule: reply.rule,
            value: reply.value,
            statuses: answers.chunks(2).take(count).map(|answer| answer[0]).collect(),
            freed: reply.top < self.top,
            texts: Vec::new(),
            saved: None,
            loaded: None,
        }
    }
}

/// So many answer words, for a case in which `text` is typed in, or as much of it as fits.
pub fn answers_for(text: &[u8], count: usize) -> Vec<u32> {
    let letter = |byte| LETTERS.iter().position(|&letter| letter == byte).unwrap_or(0) as u8;
    let mut bytes: Vec<u8> = text.iter().map(|&byte| letter(byte)).collect();
    bytes.resize(4 * count, 255);
    bytes.chunks(4).map(|word| u32::from_le_bytes([word[0], word[1], word[2], word[3]])).collect()
}

/// A store and a register in lines: its cells, equal neighbours in one line.
pub fn listed(words: &[u32], top: usize, register: usize) -> String {
    let (seed, n) = (random::seed(), words.len());
    let mut lines = format!("seed {seed}: {n} words, top {top}, register {register}\n");
    let cells: Vec<&[u32]> = words.chunks(2).collect();
    let mut c = 0;
    for equal in cells.chunk_by(|one, next| one == next) {
        lines += &format!("  from cell {c} on {} of {:?}\n", equal.len(), equal[0]);
        c += equal.len();
    }
    lines
}

/// The cells, then the calls.
impl fmt::Display for Case {
    fn fmt(&self, f: &mut fmt::Formatter<'_>) -> fmt::Result {
        f.write_str(&listed(&self.words, self.top, self.register))?;
        writeln!(f, "{} call words, {} answer words:", self.calls.len(), self.answers.len())?;
        self.calls.chunks(4).try_for_each(|call| writeln!(f, "  {call:?}"))
    }
}
