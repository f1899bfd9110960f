// edits.rs INPUT: runs the input of a must-fail edit on the store's code, and prints a line for
// each answer, its name and its numbers. edits.rs INPUT ANSWER: the answer that an edit says,
// `NAME: WRONG, not RIGHT`, as a theorem of the definitions: that they give WRONG.
// tools/edits-test compiles this file with the crates beside it, as modules of Rust.
//
// An input is steps with commas between them:
//     N cells         a fresh store of N cells is lent, with `top` 16
//     N words         N words are lent, each of them 7, with `top` 16
//     cell C A B      cell C becomes the words A and B
//     top N           `top` becomes N
//     answers N       the next batch gets N words for its answers, and not two more than it needs;
//                     each is 7
//     SYMBOL 0 65     a call, as tools/batch has them; those that follow each other are one batch
//     nest N          WRAP 0 0, N times, in a batch of which nothing is said
//     check, fresh, collect, look R    the other functions of the library
//     print R N       register R goes as text to a space of N bytes, each of them 7
//     type R "TEXT"   the text between the quotes, which may have no bytes, is typed into register R;
//                     a comma with a blank behind it would end the step
//     start           a text that comes in pieces starts
//     state S C O D T W M   its state becomes stand S, code C, offset O, depth D and T terms, W of
//                     them in the innermost open expression and M the most of one; each count is 0
//     feed "TEXT"     the text between the quotes, as for `type`, is its next piece
//     end             that text ends
//     save N          the store goes as a file to a space of N bytes, each of them 7
//     byte I B, less N, more N    byte I of that file becomes B; N bytes less at its front; N bytes
//                     more there, each of them 7
//     load N          N words are lent, each of them 7, and the file is loaded into them
//     bytes N B ..    the program reads N bytes: these, then zeros
//     word W in N     the four bytes of W go to a space of N bytes, each of them 7, then zeros
// A batch answers with its status and value, `run`; if it is run, with those of each call; with the
// words of the answer space after those, `answers`; and with `top`. `check`, `fresh`, `collect`, `type`
// and `load` answer with status, value and `top`, a look with its two word numbers, a print with
// status, value and length, then with the bytes of its space, `space`; `end` with status, value, terms
// and most; `save` with status, value, `top` and length, then with the bytes of its space, four to an
// answer, `bytes I`. After each answer but that of a look or an end comes the rule of a damaged cell,
// `rule`. The cells come last.
#![allow(warnings)]
mod build;
mod calls;
mod capi;
mod collect;
mod file;
mod meaning;
mod octets;
mod pieces;
mod reader;
mod serve;
mod store;
mod text;
mod typing;
mod words;

// A slice cut into arrays, which Rust has of its own since 1.88.
pub trait AsChunks<T> {
    fn as_chunks<const N: usize>(&self) -> (&[[T; N]], &[T]);
}

impl<T> AsChunks<T> for [T] {
    fn as_chunks<const N: usize>(&self) -> (&[[T; N]], &[T]) {
        let (whole, rest) = self.split_at(self.len() / N * N);
        // SAFETY: `whole` has so many times N elements, and an array lies in memory as its elements do.
        (unsafe { std::slice::from_raw_parts(whole.as_ptr().cast(), whole.len() / N) }, rest)
    }
}

// Each call, by its number, with the places of its operands. CALL has any words.
const CALLS: [(&str, &[usize]); 12] = [
    ("CLEAR", &[1]),
    ("COPY", &[1, 2]),
    ("SYMBOL", &[1, 2]),
    ("WRAP", &[1, 2]),
    ("JOIN", &[1, 2, 3]),
    ("HEAD", &[1, 2]),
    ("REST", &[1, 2]),
    ("OPEN", &[1, 2]),
    ("LENGTH", &[2]),
    ("FIRST", &[2]),
    ("LIVE", &[]),
    ("COLLECT", &[]),
];

fn call_words(name: &str, operands: &[u32]) -> Vec<u32> {
    if name == "CALL" {
        return operands.to_vec();
    }
    let number = CALLS.iter().position(|c| c.0 == name);
    let number = number.unwrap_or_else(|| panic!("no call is `{name}`"));
    let places = CALLS[number].1;
    assert_eq!(places.len(), operands.len(), "operands of {name}");
    let mut call = vec![number as u32, 0, 0, 0];
    places.iter().zip(operands).for_each(|(&p, &w)| call[p] = w);
    call
}

// What stands between the first quote of a step and the last, which ends it.
fn quoted(step: &str) -> &str {
    let behind = step.split_once('"').and_then(|(_, s)| s.strip_suffix('"'));
    behind.unwrap_or_else(|| panic!("no text stands between quotes in `{step}`"))
}

// A list of the definitions.
fn list(numbers: &[u32]) -> String {
    numbers.iter().map(|n| format!("{n} ∷ ")).collect::<String>() + "[]"
}

// A text's bytes, and the list of them.
fn bytes_of(text: &str) -> (&[u8], String) {
    (text.as_bytes(), list(&text.bytes().map(u32::from).collect::<Vec<_>>()))
}

// Where the reader of a text stands, by its number.
fn standing(stand: u32, code: u32) -> String {
    match stand {
        0 => "begun".to_string(),
        1 => "spaced".to_string(),
        2 => format!("(number {code})"),
        3 => "closed".to_string(),
        13 | 21 | 24 => format!("(stopped {stand})"),
        _ => "(stopped 23)".to_string(),
    }
}

// What is lent, with the terms of the definitions for its words and its `top`; and the state of a text
// that comes in pieces, with the term for it.
struct Lent {
    words: Vec<u32>,
    top: usize,
    ws: String,
    t: String,
    space: Option<usize>,
    file: Vec<u8>,
    state: pieces::Pieces,
    p: String,
    batch: Vec<(String, Vec<u32>)>,
    said: Option<String>,
}

impl Lent {
    // One answer, and the term for it: a line, or the theorem if an edit says something of it.
    fn say(&self, name: &str, numbers: &[u32], term: String) {
        let right = numbers.iter().map(u32::to_string).collect::<Vec<_>>().join(" ");
        let Some(said) = &self.said else {
            println!("{name}\t{right}");
            return;
        };
        let wrong = said
            .strip_prefix(&format!("{name}: "))
            .and_then(|s| s.strip_suffix(&format!(", not {right}")));
        if let Some(wrong) = wrong.filter(|&w| w != right) {
            let wrong: Vec<u32> = wrong.split(' ').map(|n| n.parse().unwrap()).collect();
            println!("wrong : T (same ({term}) ({}))", list(&wrong));
        }
    }

    // An answer to collecting, to a fresh store, to a text that is typed or to a file, by the term for it.
    fn answered(&mut self, name: &str, numbers: [u32; 3], top: usize, done: String) {
        let [status, rule, value] = numbers;
        let term = format!("{done}.verdict.status ∷ {done}.verdict.value ∷ {done}.top ∷ []");
        self.say(name, &[status, value, top as u32], term);
        self.rule(rule, format!("{done}.verdict"));
        self.left(top, done);
    }

    // The rule that goes with an answer, by the term for its verdict.
    fn rule(&self, rule: u32, verdict: String) {
        self.say("rule", &[rule], format!("{verdict}.rule ∷ []"));
    }

    // The store and `top` that a function leaves, by the term for what it does.
    fn left(&mut self, top: usize, done: String) {
        self.top = top;
        self.ws = format!("({done}.words)");
        self.t = format!("({done}.top)");
    }

    // The calls since the last other step, as one batch.
    fn run(&mut self) {
        let batch = std::mem::take(&mut self.batch);
        if batch.is_empty() {
            return;
        }
        let calls: Vec<u32> = batch.iter().flat_map(|c| c.1.clone()).collect();
        let space = self.space.take().unwrap_or(calls.len() / 2 + 2);
        let mut answers = vec![7; space];
        let (ws, t, list) = (&self.ws, &self.t, list(&calls));
        let done = format!("(batch 16 {ws} {t} ({list}) (replicate {space} 7))");
        let a = capi::zelmotar_run(&mut self.words, self.top, &calls, &mut answers);
        let verdict = format!("{done}.verdict.status ∷ {done}.verdict.value ∷ []");
        self.say("run", &[a.status, a.value], verdict);
        self.rule(a.rule, format!("{done}.verdict"));
        let used = if a.status == 0 { 2 * batch.len() } else { 0 };
        for (i, pair) in answers[..used].chunks(2).enumerate() {
            self.say(&batch[i].0, pair, format!("take 2 (drop {} ({done}.answers))", 2 * i));
        }
        self.say("answers", &answers[used..], format!("drop {used} ({done}.answers)"));
        self.say("top", &[a.top as u32], format!("{done}.top ∷ []"));
        self.left(a.top, done);
    }

    fn step(&mut self, text: &str) {
        let numbers: Vec<u32> = text.split(' ').filter_map(|w| w.parse().ok()).collect();
        let name = text.split(' ').find(|w| w.parse::<u32>().is_err()).expect("a step has a name");
        if name.to_uppercase() == name {
            self.batch.push((text.to_string(), call_words(name, &numbers)));
            return;
        }
        self.run();
        let (ws, t) = (self.ws.clone(), self.t.clone());
        match (name, &numbers[..]) {
            ("cells", &[n]) => {
                self.words = vec![0; 2 * n as usize];
                (0..16).for_each(|c| self.words[2 * c + 1] = 1 << 31);
                self.ws = format!("(fresh 16 {n})");
            }
            ("words", &[n]) => {
                self.words = vec![7; n as usize];
                self.ws = format!("(replicate {n} 7)");
            }
            ("cell", &[c, a, b]) => {
                self.words[2 * c as usize..][..2].copy_from_slice(&[a, b]);
                self.ws = format!("(put_cell {ws} {c} {a} {b})");
            }
            ("top", &[n]) => {
                self.top = n as usize;
                self.t = n.to_string();
            }
            ("answers", &[n]) => self.space = Some(n as usize),
            ("check", []) => {
                let a = capi::zelmotar_check(&self.words, self.top);
                let v = format!("(check 16 {ws} {t})");
                let term = format!("{v}.status ∷ {v}.value ∷ {t} ∷ []");
                self.say(text, &[a.status, a.value, a.top as u32], term);
                self.rule(a.rule, v);
            }
            ("fresh", []) => {
                let a = capi::zelmotar_fresh(&mut self.words);
                let done = format!("(fresh_in 16 {ws})");
                self.answered(text, [a.status, a.rule, a.value], a.top, done);
            }
            ("collect", []) => {
                let a = capi::zelmotar_collect(&mut self.words, self.top);
                let done = format!("(collect_in 16 {ws} {t})");
                self.answered(text, [a.status, a.rule, a.value], a.top, done);
            }
            ("look", &[r]) => {
                let place = capi::zelmotar_look(&self.words, self.top, r as usize);
                let s = format!("(look_span 16 {ws} {t} {r})");
                let term = format!("{s}.from ∷ {s}.to ∷ []");
                self.say(text, &[place.from as u32, place.to as u32], term);
            }
            ("nest", &[n]) => {
                let calls = [3, 0, 0, 0].repeat(n as usize);
                let mut answers = vec![7; 2 * n as usize];
                let (list, space) = (list(&calls), answers.len());
                let done = format!("(batch 16 {ws} {t} ({list}) (replicate {space} 7))");
                let a = capi::zelmotar_run(&mut self.words, self.top, &calls, &mut answers);
                self.left(a.top, done);
            }
            ("print", &[r, n]) => {
                let mut space = vec![7; n as usize];
                let a = capi::zelmotar_print(&self.words, self.top, r as usize, &mut space);
                let p = format!("(print_in 16 {ws} {t} {r} {n})");
                let term = format!("{p}.verdict.status ∷ {p}.verdict.value ∷ {p}.size ∷ []");
                self.say(text, &[a.status, a.value as u32, a.length as u32], term);
                self.rule(a.rule, format!("{p}.verdict"));
                let space: Vec<u32> = space.iter().map(|&b| b as u32).collect();
                self.say("space", &space, format!("{p}.space"));
            }
            // Words of the text that are numbers are among the numbers too.
            ("type", &[r, ..]) => {
                let (typed, list) = bytes_of(quoted(text));
                let a = capi::zelmotar_type(&mut self.words, self.top, r as usize, typed);
                let done = format!("(type_in 16 {ws} {t} {r} ({list}))");
                self.answered(text, [a.status, a.rule, a.value as u32], a.top, done);
            }
            ("start", []) => {
                self.state = capi::zelmotar_text_start();
                self.p = "no_pieces".to_string();
            }
            ("state", &[stand, code, offset, depth, terms, own, most]) => {
                let place = format!("reader {} {offset} {depth} {terms}", standing(stand, code));
                let levels = format!("own = {own}; most = {most}; waiting = replicate 64 0");
                self.p = format!("(record {{ place = {place}; {levels} }})");
                let (offset, depth, terms) = (offset as usize, depth as usize, terms as usize);
                let counts = [0; 64];
                self.state =
                    pieces::Pieces { stand, code, offset, depth, terms, own, most, counts };
            }
            ("feed", _) => {
                let (piece, list) = bytes_of(quoted(text));
                self.state = capi::zelmotar_text_feed(self.state, piece);
                self.p = format!("(fed {} ({list}))", self.p);
            }
            ("end", []) => {
                let a = capi::zelmotar_text_end(self.state);
                let c = format!("(counted {})", self.p);
                let term =
                    format!("{c}.verdict.status ∷ {c}.verdict.value ∷ {c}.need ∷ {c}.most ∷ []");
                let numbers = [a.status, a.value as u32, a.terms as u32, a.most as u32];
                self.say(text, &numbers, term);
            }
            ("save", &[n]) => self.save(text, n as usize),
            ("byte", &[i, b]) => self.file[i as usize] = b as u8,
            ("less", &[n]) => drop(self.file.drain(..n as usize)),
            ("more", &[n]) => drop(self.file.splice(..0, vec![7; n as usize])),
            ("load", &[n]) => {
                self.words = vec![7; n as usize];
                let a = capi::zelmotar_load(&mut self.words, &self.file);
                let file: Vec<u32> = self.file.iter().map(|&b| b as u32).collect();
                let done = format!("(load_in ({}) (replicate {n} 7))", list(&file));
                self.answered(text, [a.status, a.rule, a.value], a.top, done);
            }
            ("bytes", [n, first @ ..]) => program(*n as usize, first),
            ("word", &[w, n]) => self.word(w, n as usize),
            _ => panic!("no step is `{text}`"),
        }
    }

    // The file is what the space has of it, for the steps that load it.
    fn save(&mut self, text: &str, n: usize) {
        let mut space = vec![7; n];
        let done = format!("(save_in edition 16 {} {} {n})", self.ws, self.t);
        let a = capi::zelmotar_save(&mut self.words, self.top, &mut space);
        let term =
            format!("{done}.verdict.status ∷ {done}.verdict.value ∷ {done}.top ∷ {done}.size ∷ []");
        self.say(text, &[a.status, a.value, a.top as u32, a.length as u32], term);
        self.rule(a.rule, format!("{done}.verdict"));
        for (i, four) in space.chunks(4).enumerate() {
            let four: Vec<u32> = four.iter().map(|&b| b as u32).collect();
            let term = format!("take 4 (drop {} ({done}.space))", 4 * i);
            self.say(&format!("bytes {}", 4 * i), &four, term);
        }
        space.truncate(a.length);
        self.file = space;
        self.left(a.top, done);
    }

    fn word(&self, w: u32, n: usize) {
        let mut out = vec![7; n];
        let written = octets::writing::put_word(&mut out, 0, w);
        octets::writing::zero_from(&mut out, written.unwrap_or_else(|full| full.place));
        let out: Vec<u32> = out.iter().map(|&b| b as u32).collect();
        self.say("bytes", &out, String::new());
        self.say("short", &[written.is_err() as u32], String::new());
    }
}

fn program(n: usize, first: &[u32]) {
    let mut input: Vec<u8> = first.iter().map(|&b| b as u8).collect();
    input.resize(n, 0);
    let mut out = [0; serve::OUTPUT];
    let n = serve::serve(&input, &mut out);
    String::from_utf8_lossy(&out[..n]).lines().for_each(|line| println!("output\t{line}"));
}

fn main() {
    let mut args = std::env::args().skip(1);
    let input = args.next().expect("an input");
    let (ws, t, p) = ("[]".to_string(), "16".to_string(), "no_pieces".to_string());
    let (said, words, batch, file) = (args.next(), vec![], vec![], vec![]);
    let state = capi::zelmotar_text_start();
    let mut lent = Lent { words, top: 16, ws, t, space: None, file, state, p, batch, said };
    input.split(", ").for_each(|step| lent.step(step));
    lent.run();
    for (c, cell) in lent.words.chunks(2).enumerate() {
        let term = format!("first_word {0} {c} ∷ second_word {0} {c} ∷ []", lent.ws);
        lent.say(&format!("cell {c}"), cell, term);
    }
}
