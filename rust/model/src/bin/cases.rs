//! Random cases for the definitions, as a module of antt: stores, calls, answer spaces, text spaces, texts, pieces,
//! files and inputs with what the model makes of them.
//!
//! `cases COUNT` writes the module to standard output. The definitions compute each case when the
//! module is checked. A group of cases is one theorem, so that a refusal names its group.

use std::fmt::Write;
use zelmotar_model::files::{self, Saved};
use zelmotar_model::make::files::{put_trailer_word, trailer_word, Kind};
use zelmotar_model::make::pieces::Cut;
use zelmotar_model::make::{self, Runs};
use zelmotar_model::pieces::{Counted, State, START};
use zelmotar_model::plain::{self, Reply, Text, Typed, FIRST_HEAP_CELL};
use zelmotar_model::random::Random;

/// The cases of one theorem.
const GROUP: usize = 20;

/// Stores stay small: the definitions are computed by unfolding, which is slow on long lists.
const MAX_CELLS: usize = 30;

/// And so do text spaces and texts, all but a few in which as many brackets fit as may be open.
const MAX_TEXT: usize = 60;

/// The longest file: that of such a store, with a few bytes or another short one before it.
const MAX_FILE: usize = 8 * (MAX_CELLS + 1) + 16 + 176;

/// The largest capacity that a file may tell. None over the limit is allowed, however large.
const MAX_TOLD: u32 = 10_000;

/// Everything before the cases: their type, and the test of each kind.
const HEAD: &str = "\
-- Random cases, written by a program from the model. Assumes nothing.
use Rattle.std.specs.Prelude.{Bool, true, ◌&&◌, List, [], ◌∷◌, ℕ, eqb, T}
use Rattle.words.specs.Second.{flag, decode}
use Rattle.octets.specs.Decimal.{decimal}
use Rattle.octets.specs.Space.{filled}
use Rattle.meaning.specs.Limits.{first_heap_cell, limit, code_test, depth_limit, terms_limit, calls_limit}
use Rattle.meaning.specs.Limits.{program_cells, program_bytes, edition}
use Rattle.meaning.specs.Sound.{at}
use Rattle.meaning.specs.Meaning.{meaning}
use Rattle.meaning.specs.Reach.{reached, live}
use Rattle.meaning.specs.Collected.{new_address, collected_of, collected}
use Rattle.meaning.specs.Verdicts.{Verdict, Done}
use Rattle.meaning.specs.Check.{bracket_rule, below_rule, broken_rule, cell_test, length_test, top_test, verdict_at}
use Rattle.meaning.specs.Check.{check, collect_in}
use Rattle.meaning.specs.Fresh.{fresh, fresh_in}
use Rattle.meaning.specs.Look.{Span, span_of, look_span}
use Rattle.meaning.specs.Operands.{ops, op_at, uses, names, is_operand, wrong11, wrong12, wrong13, fault}
use Rattle.meaning.specs.Actions.{put, copy, share, head, rest, open_term, open_first, code_term, code_first}
use Rattle.meaning.specs.Actions.{new_symbol, new_bracket, new_run_of, new_run}
use Rattle.meaning.specs.Call.{keeps, sought, plan_of, lacks, room_words, room_top, with_room, carry_out, perform}
use Rattle.meaning.specs.Call.{step_after, step}
use Rattle.meaning.specs.Batch.{Outcome, ended, calls_test, batch_of, batch}
use Rattle.meaning.specs.Text.{Printed, left_after, too_deep, printed, print_in}
use Rattle.meaning.specs.Judge.{Stand, begun, spaced, number, closed, stopped}
use Rattle.meaning.specs.Judge.{is_digit, with_digit, first_move, later_move, more_move}
use Rattle.meaning.specs.Reader.{Reader, reader, is_full, at_start, is_whole, stop_verdict, read, blank}
use Rattle.meaning.specs.Lay.{new_cells}
use Rattle.meaning.specs.Typed.{typed_of, type_in}
use Rattle.meaning.specs.Pieces.{Count, Pieces, feed, fits, fed, fed_all, counted}
use Rattle.meaning.specs.File.{Saved, first_of, file_words, file_of, trailer, cells_in, image, distance_test}
use Rattle.meaning.specs.File.{capacity_test, check_store, check_as, check_file, load_in, saved_as, save_in}
use Rattle.meaning.specs.Program.{written, refusal, output, input_fault, program}
use Rattle.meaning.specs.Rows.{same, verdict_test}

data Case : Type 0 where
  batches : List ℕ → ℕ → List ℕ → List ℕ → Verdict → List ℕ → ℕ → List ℕ → Case
  collects : List ℕ → ℕ → Verdict → List ℕ → ℕ → Case
  makes : List ℕ → ℕ → List ℕ → ℕ → Case
  looks : List ℕ → ℕ → ℕ → ℕ → ℕ → Case
  prints : List ℕ → ℕ → ℕ → ℕ → Verdict → ℕ → List ℕ → Case
  types : List ℕ → ℕ → ℕ → List ℕ → Verdict → List ℕ → ℕ → Case
  feeds : Pieces → List (List ℕ) → Pieces → Verdict → ℕ → ℕ → Case
  saves : List ℕ → ℕ → ℕ → Verdict → ℕ → List ℕ → ℕ → List ℕ → Case
  loads : List ℕ → List ℕ → Verdict → List ℕ → ℕ → Case
  writes : List ℕ → List ℕ → Case

-- status, value and rule
told : ℕ → ℕ → ℕ → Verdict
told s n q = record { status = s; value = n; rule = q }

outcome : Outcome → Verdict → List ℕ → ℕ → List ℕ → Bool
outcome r v ws top answers =
    verdict_test r.verdict v && same r.words ws && eqb r.top top && same r.answers answers

left : Done → Verdict → List ℕ → ℕ → Bool
left r v ws top = verdict_test r.verdict v && same r.words ws && eqb r.top top

span : Span → ℕ → ℕ → Bool
span s from to = eqb s.from from && eqb s.to to

textual : Printed → Verdict → ℕ → List ℕ → Bool
textual p v n t = verdict_test p.verdict v && eqb p.size n && same p.space t

-- where the reader stands, the offset, the brackets, the terms, those of the level, the most, and the counts
pieces : Stand → ℕ → ℕ → ℕ → ℕ → ℕ → List ℕ → Pieces
pieces s n d t o m w = record { place = reader s n d t; own = o; most = m; waiting = w }

-- a stand as two numbers
stands : Stand → List ℕ
stands begun = 0 ∷ []
stands spaced = 1 ∷ []
stands (number a) = 2 ∷ a ∷ []
stands closed = 3 ∷ []
stands (stopped s) = 4 ∷ s ∷ []

places : Reader → List ℕ
places r = r.offset ∷ r.depth ∷ r.total ∷ stands r.stand

parts : Pieces → List ℕ
parts p = p.own ∷ p.most ∷ places p.place

state : Pieces → Pieces → Bool
state p q = same (parts p) (parts q) && same p.waiting q.waiting

tally : Count → Verdict → ℕ → ℕ → Bool
tally c v n m = verdict_test c.verdict v && eqb c.need n && eqb c.most m

filed : Saved → Verdict → ℕ → List ℕ → ℕ → List ℕ → Bool
filed r v n ws top bs =
    verdict_test r.verdict v && eqb r.size n && same r.words ws && eqb r.top top && same r.space bs

right : Case → Bool
right (batches ws top calls out v ws' top' answers) =
    outcome (batch first_heap_cell ws top calls out) v ws' top' answers
right (collects ws top v ws' top') = left (collect_in first_heap_cell ws top) v ws' top'
right (makes ws s ws' top') = left (fresh_in first_heap_cell ws) (told s 0 0) ws' top'
right (looks ws top i from to) = span (look_span first_heap_cell ws top i) from to
right (prints ws top i n v m t) = textual (print_in first_heap_cell ws top i n) v m t
right (types ws top d bs v ws' top') = left (type_in first_heap_cell ws top d bs) v ws' top'
right (feeds p ps q v n m) = state (fed_all p ps) q && tally (counted (fed_all p ps)) v n m
right (saves ws top n v m ws' top' bs) = filed (save_in edition first_heap_cell ws top n) v m ws' top' bs
right (loads bs ws v ws' top') = left (load_in bs ws) v ws' top'
right (writes input said) = same (program first_heap_cell input) said

every : List Case → Bool
every [] = true
every (c ∷ cs) = right c && every cs
";

/// The definitions that the cases unfold.
const UNFOLDING: &str = "\
unfolding limit code_test terms_limit calls_limit program_cells program_bytes at reached live new_address collected_of
    collected decode flag bracket_rule below_rule broken_rule cell_test length_test top_test verdict_at check fresh
    fresh_in collect_in span_of look_span ops op_at uses wrong11 wrong12 wrong13 fault put copy share head rest
    open_term open_first code_term code_first new_symbol new_bracket new_run_of new_run names is_operand keeps sought
    plan_of lacks room_words room_top with_room carry_out perform step_after step ended calls_test batch_of batch
    decimal written refusal output input_fault program depth_limit meaning left_after too_deep filled printed print_in
    is_digit with_digit first_move later_move more_move is_full at_start is_whole stop_verdict read blank new_cells
    typed_of type_in feed fits fed counted first_of file_words file_of trailer cells_in image distance_test
    capacity_test check_store check_as check_file load_in saved_as save_in verdict_test told outcome left span textual
    pieces stands places parts state tally filed right every";

/// A list of numbers in antt.
fn list<T: std::fmt::Display>(numbers: &[T]) -> String {
    let mut text = String::from("(");
    for number in numbers {
        write!(text, "{number} ∷ ").expect("a string takes all text");
    }
    text + "[])"
}

/// A verdict in antt.
fn told<T: std::fmt::Display>(status: u32, value: T, rule: u32) -> String {
    format!("(told {status} {value} {rule})")
}

/// A store of few cells, sound or damaged.
fn store(random: &mut Random) -> (Vec<u32>, usize) {
    let capacity = random.within(FIRST_HEAP_CELL..=MAX_CELLS);
    let (mut words, mut top) = make::sound(random, capacity, Runs::Any);
    if random.one_in(4) {
        make::damage(random, &mut words, &mut top);
        words.truncate(2 * MAX_CELLS + 3);
    }
    (words, top)
}

/// The cells that a nearly full store is made of. It may get a few more.
fn nearly_full(random: &mut Random) -> usize {
    random.within(FIRST_HEAP_CELL..=MAX_CELLS - 6)
}

/// A store and calls for it: a few on any store, or one that lays new cells on a nearly full one.
fn calls(random: &mut Random) -> (Vec<u32>, usize, Vec<u32>) {
    if random.one_in(3) {
        let (capacity, operation) = (nearly_full(random), random.pick(&[2, 3, 4]));
        let (words, top, call) = make::tight_call(random, capacity, operation);
        return (words, top, call.to_vec());
    }
    let (words, top) = store(random);
    let count = random.below(10);
    let mut calls = make::calls(random, count);
    if random.one_in(10) {
        calls.resize(calls.len() + random.below(4), 0);
    }
    (words, top, calls)
}

/// A batch: what is lent, and what the model leaves.
fn batch(random: &mut Random) -> String {
    let (mut words, top, calls) = calls(random);
    let mut answers = make::answers(random, calls.len());
    let lent = format!("{} {} {} {}", list(&words), top, list(&calls), list(&answers));
    let Reply { status, rule, value, top } = plain::run(&mut words, top, &calls, &mut answers);
    let told = told(status, value, rule);
    format!("batches {lent} {told} {} {top} {}", list(&words), list(&answers))
}

/// A collection alone.
fn collection(random: &mut Random) -> String {
    let (mut words, top) = store(random);
    let lent = format!("{} {}", list(&words), top);
    let Reply { status, rule, value, top } = plain::collect(&mut words, top);
    format!("collects {lent} {} {} {top}", told(status, value, rule), list(&words))
}

/// A fresh store over words of any kind.
fn fresh(random: &mut Random) -> String {
    let length = random.below(2 * MAX_CELLS + 4);
    let mut words: Vec<u32> = (0..length).map(|_| random.word()).collect();
    let lent = list(&words);
    let Reply { status, top, .. } = plain::fresh(&mut words);
    format!("makes {lent} {status} {} {top}", list(&words))
}

/// A look at a register, or at a number that is none.
fn look(random: &mut Random) -> String {
    let (words, top) = store(random);
    let register = random.below(FIRST_HEAP_CELL + 3);
    let (from, to) = plain::look(&words, top, register);
    format!("looks {} {top} {register} {from} {to}", list(&words))
}

/// A register printed, or a number that is none. One store in a few nests brackets too deep, or nearly.
fn print(random: &mut Random) -> String {
    let register = random.below(FIRST_HEAP_CELL + 3);
    let ((mut words, top), most) = match (register < FIRST_HEAP_CELL, random.below(8)) {
        (true, 0..=1) => {
            let (brackets, most) = (random.within(62..=67), random.pick(&[0, 0, 1]));
            (make::nest(random, brackets, most, register), 2 * brackets)
        }
        (true, 2) => {
            let levels = random.within(2..=6);
            (make::doubled(random, levels, register), MAX_TEXT)
        }
        _ => (store(random), MAX_TEXT),
    };
    if plain::check(&words, top).status == 0 {
        make::recode(random, &mut words, top);
    }
    let end = make::text_end(&words, top, register, most);
    let mut space = make::text_space(random, end);
    let Text { status, rule, value, length } = plain::print(&words, top, register, &mut space);
    let (n, told) = (space.len(), told(status, value, rule));
    format!("prints {} {top} {register} {n} {told} {length} {}", list(&words), list(&space))
}

/// A short text, or one that nests brackets too deep, or nearly; whole, spoilt or cut.
fn text(random: &mut Random) -> Vec<u8> {
    let most = random.pick(&[MAX_TEXT, MAX_TEXT, 140]);
    let mut text = make::text(random);
    while text.len() > most {
        text = make::text(random);
    }
    match random.below(4) {
        0 => make::spoil_text(random, &mut text),
        1 => make::cut_text(random, &mut text),
        _ => {}
    }
    text
}

/// A store with about as much room as a text needs, a register or a number that is none, and the text.
fn typeable(random: &mut Random) -> (Vec<u32>, usize, usize, Vec<u8>) {
    if random.one_in(3) {
        let (capacity, most) = (nearly_full(random), random.pick(&[1, 3, 8]));
        return make::tight_text(random, capacity, most);
    }
    let ((mut words, top), text) = (store(random), text(random));
    if plain::check(&words, top).status == 0 {
        let need = plain::read(&text).map_or(0, |(cells, _)| cells.len());
        make::crowd(random, &mut words, top, need);
    }
    (words, top, random.below(FIRST_HEAP_CELL + 2), text)
}

/// A text typed into a register.
fn typed(random: &mut Random) -> String {
    let (mut words, top, register, text) = typeable(random);
    let lent = format!("{} {top} {register} {}", list(&words), list(&text));
    let Typed { status, rule, value, top } = plain::type_in(&mut words, top, register, &text);
    format!("types {lent} {} {} {top}", told(status, value, rule), list(&words))
}

/// What is kept of a text in pieces, as the definitions have it.
fn state(state: &State) -> String {
    let State { stand, code, offset, depth, terms, own, most, counts } = state;
    let stand = match stand {
        0 => "begun".into(),
        1 => "spaced".into(),
        2 => format!("(number {code})"),
        3 => "closed".into(),
        13 | 21 | 24 => format!("(stopped {stand})"),
        _ => "(stopped 23)".into(),
    };
    format!("(pieces {stand} {offset} {depth} {terms} {own} {most} {})", list(counts))
}

/// Pieces fed to a state, the first one, one that a text left, or one with any numbers.
fn pieces(random: &mut Random) -> String {
    let (before, text) = match random.below(4) {
        0..=1 => (START, text(random)),
        2 => (make::pieces::met(random), make::pieces::letters(random, 12)),
        _ => (make::pieces::state(random), make::pieces::letters(random, 12)),
    };
    let pieces = random.pick(&Cut::ALL).pieces(random, &text);
    let after = pieces.iter().fold(before, |state, piece| state.feed(piece));
    let fed: String = pieces.iter().map(|piece| list(piece) + " ∷ ").collect();
    let Counted { status, value, terms, most } = after.end();
    let told = told(status, value, 0);
    format!("feeds {} ({fed}[]) {} {told} {terms} {most}", state(&before), state(&after))
}

/// A store saved.
fn saved(random: &mut Random) -> String {
    let (mut words, top) = store(random);
    let mut space = make::files::space(random, &words, top);
    let lent = format!("{} {top} {}", list(&words), space.len());
    let Saved { status, rule, value, top, length } = files::save(&mut words, top, &mut space);
    let told = told(status, value, rule);
    format!("saves {lent} {told} {length} {} {top} {}", list(&words), list(&space))
}

/// A short file of any kind; now and then one without a trailer, or with a capacity that is too small or
/// too large.
fn file(random: &mut Random) -> Vec<u8> {
    let mut file = loop {
        let capacity = random.within(FIRST_HEAP_CELL..=MAX_CELLS);
        let kind = match random.one_in(5) {
            true => Kind::Uncollected,
            false => random.pick(&Kind::ALL),
        };
        let file = make::files::file(random, capacity, kind);
        if file.len() <= MAX_FILE && trailer_word(&file, 2).is_none_or(|word| word <= MAX_TOLD) {
            break file;
        }
    };
    match (random.below(20), trailer_word(&file, 1)) {
        (0, _) => file.truncate(random.below(16)),
        (1 | 2, Some(heap_cells)) => {
            let capacity = random.pick(&[15, heap_cells.wrapping_add(15), 4_097]);
            put_trailer_word(&mut file, 2, capacity.min(MAX_TOLD));
        }
        _ => {}
    }
    file
}

/// A file loaded into a few words of any kind.
fn loaded(random: &mut Random) -> String {
    let file = file(random);
    let mut words = make::files::slice(random, &file);
    let most = random.pick(&[36, 2 * MAX_CELLS + 4, 2 * MAX_CELLS + 4]);
    words.truncate(most);
    let lent = format!("{} {}", list(&file), list(&words));
    let Reply { status, rule, value, top } = files::load(&mut words, &file);
    format!("loads {lent} {} {} {top}", told(status, value, rule), list(&words))
}

/// The little-endian word that four bytes spell.
fn word(bytes: &[u8]) -> u32 {
    u32::from_le_bytes(bytes.try_into().expect("four bytes"))
}

/// What the program has to write: the batch on a fresh store, or a refusal.
fn written(input: &[u8]) -> String {
    let capacity = input.get(..4).map_or(0, |bytes| word(bytes) as usize);
    if !(FIRST_HEAP_CELL..=4096).contains(&capacity) {
        return "refused 1 0\n".into();
    }
    if input.len() > 16388 || (input.len() - 4) % 16 != 0 {
        return "refused 4 0\n".into();
    }
    let calls: Vec<u32> = input[4..].chunks(4).map(word).collect();
    let (mut words, mut answers) = (vec![0; 2 * capacity], vec![0; calls.len() / 2]);
    let top = plain::fresh(&mut words).top;
    let reply = plain::run(&mut words, top, &calls, &mut answers);
    let lines: String = answers.chunks(2).map(|a| format!("{} {}\n", a[0], a[1])).collect();
    format!("{lines}top {}\n", reply.top)
}

/// The program's bytes for a short input, whole, cut short or with a bad capacity.
fn program(random: &mut Random) -> String {
    let capacity = random.pick(&[16, 17, 18, 20, 24, 15, 0, 4097]);
    let count = random.below(8);
    let words = [vec![capacity], make::calls(random, count)].concat();
    let mut input: Vec<u8> = words.iter().flat_map(|word| word.to_le_bytes()).collect();
    if random.one_in(4) {
        input.truncate(random.below(input.len() + 1));
    }
    format!("writes {} {}", list(&input), list(written(&input).as_bytes()))
}

/// One case of any kind, batches more often than not.
fn case(random: &mut Random) -> String {
    match random.below(20) {
        0..=4 => batch(random),
        5..=6 => collection(random),
        7 => fresh(random),
        8 => look(random),
        9..=11 => print(random),
        12..=15 => typed(random),
        16 if random.one_in(3) => saved(random),
        16 => loaded(random),
        17..=18 => pieces(random),
        _ => program(random),
    }
}

/// Writes the module.
fn main() {
    let count: usize = std::env::args().nth(1).and_then(|n| n.parse().ok()).unwrap_or(1000);
    let mut random = Random::of("definitions");
    println!("{HEAD}");
    for group in 0..count.div_ceil(GROUP) {
        println!("group{group} : T (every (");
        for _ in 0..GROUP.min(count - group * GROUP) {
            println!("    {} ∷", case(&mut random));
        }
        println!("    []))\n{UNFOLDING}\ngroup{group} = tt\n");
    }
}
