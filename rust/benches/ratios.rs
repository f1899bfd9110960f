//! How long the library takes, measured against the ordinary stores of the model in the same run, for
//! [`files`] against a copy too, and for [`counts`] against an ordinary counter.
//!
//! Run it with `cargo bench --bench ratios`. It prints the tables of `docs/BENCHMARKS.md`; with
//! `-- growth` behind, those of growth alone, and with `-- stores` all but those. The ordinary
//! stores may use memory beside the store: the usual one, the usual one with bits, the better one.
//!
//! Contenders take turns on the same stores. Each call gets a copy of the store that was written
//! just before, and the least time of all rounds counts. Before anything is timed, all contenders
//! must leave the same words and give the same answers.

#[path = "ratios/counts.rs"]
mod counts;
#[path = "ratios/files.rs"]
mod files;

use std::time::{Duration, Instant};
use std::{env, fs, hint::black_box};

use zelmotar::{raw, Call};
use zelmotar_model::make::{self, Runs};
use zelmotar_model::ordinary::{self, Better, Checks, Marks, Ordinary, Usual, WithBits};
use zelmotar_model::plain::{
    self, Cell, Reply, Text, Typed, FIRST_HEAP_CELL, MAX_CELLS, MAX_DEPTH,
};
use zelmotar_model::random::Random;

/// Words and `top` of a store.
type Lent = (Vec<u32>, usize);

/// Something that works on a store: words, `top` and an answer space go in.
type Contender<'a> = Box<dyn FnMut(&mut [u32], usize, &mut [u32]) -> Reply + 'a>;

/// The library, the ordinary store, the one with bits and the better one. A column may be empty.
type Columns<T> = [Option<T>; 4];

/// Calls in a timed batch.
const BATCH: usize = 1024;
/// The time that each contender gets in one row.
const ROW_TIME: Duration = Duration::from_millis(60);
/// Rounds in a row, even where they take longer than that.
const LEAST_ROUNDS: usize = 5;
/// Capacities at which growth is shown, below the limit. The limit comes last.
const SIZES: [usize; 4] = [64, 512, 4096, 16384];
/// Bytes of text spaces: those at which the growth of printing is shown, the last for all else.
const SPACES: [usize; 4] = [1024, 4096, 16384, 65536];
/// Symbols of the texts at which the growth of typing is shown.
const SYMBOLS: [usize; 4] = [40, 400, 2000, 4000];
/// Beyond this capacity growth leaves out what would take too long: batches of many calls, and
/// walks where runs overlap.
const ALL_UP_TO: usize = 4096;

/// Registers in which the stores keep what is live.
const KEPT: usize = 12;
/// Registers that the timed calls use.
const SCRATCH: [u32; 4] = [12, 13, 14, 15];
/// The register that texts are typed into.
const TYPED: usize = SCRATCH[3] as usize;

fn empty_store(capacity: usize) -> Lent {
    let mut words = vec![0; 2 * capacity];
    let top = plain::fresh(&mut words).top;
    (words, top)
}

/// Brackets that all hold the same symbols, as many of one as of the other.
fn site(capacity: usize, each: usize) -> Lent {
    let (mut words, top) = empty_store(capacity);
    let (brackets, end) = (top + each, top + 2 * each);
    for c in top..brackets {
        plain::put(&mut words, c, Cell::Symbol(c as u32));
    }
    for c in brackets..end {
        plain::put(&mut words, c, Cell::Bracket(top, brackets - 1));
    }
    plain::put(&mut words, 0, Cell::Bracket(brackets, end - 1));
    (words, end)
}

/// A full store of groups of four cells, of which one in `one_in` is live.
///
/// A group is a bracket around an earlier group, then three symbols. The live groups form lists,
/// one to a register.
fn lists(capacity: usize, one_in: usize) -> Lent {
    let (mut words, _) = empty_store(capacity);
    let mut last = [Cell::Empty; KEPT];
    for (group, c) in (FIRST_HEAP_CELL..capacity).step_by(4).enumerate() {
        let list = group / one_in % KEPT;
        plain::put(&mut words, c, last[list]);
        (1..4).for_each(|i| plain::put(&mut words, c + i, Cell::Symbol(i as u32)));
        if group % one_in == 0 {
            last[list] = Cell::Bracket(c, c + 3);
        }
    }
    (0..KEPT).for_each(|list| plain::put(&mut words, list, last[list]));
    (words, capacity)
}

fn half_dead(capacity: usize) -> Lent {
    lists(capacity, 2)
}

fn all_live(capacity: usize) -> Lent {
    lists(capacity, 1)
}

/// The last symbol of the store above, taken from its list, is all that the last scratch register
/// holds. Each new symbol for that register takes its room.
fn one_own(capacity: usize) -> Lent {
    let (mut words, top) = all_live(capacity);
    let list_of_last = ((top - FIRST_HEAP_CELL) / 4 - 1) % KEPT;
    plain::put(&mut words, list_of_last, Cell::Bracket(top - 4, top - 2));
    plain::put(&mut words, TYPED, Cell::Bracket(top - 1, top - 1));
    (words, top)
}

/// A store with what register 0 holds in the last scratch register too.
fn copied((mut words, top): Lent) -> Lent {
    words.copy_within(0..2, 2 * TYPED);
    (words, top)
}

/// A store with what register 0 holds in the last scratch register instead.
fn moved(store: Lent) -> Lent {
    let (mut words, top) = copied(store);
    plain::put(&mut words, 0, Cell::Empty);
    (words, top)
}

/// A full store of cells drawn by lot: symbols, empty brackets and brackets over a few cells, most
/// often over cells just below.
fn random(capacity: usize) -> Lent {
    let mut random = Random::of("benchmark");
    let (mut words, _) = empty_store(capacity);
    for c in FIRST_HEAP_CELL..capacity {
        plain::put(&mut words, c, make::heap_cell(&mut random, c, Runs::Recent));
    }
    for register in 0..KEPT {
        let (l, r) = make::run(&mut random, capacity, Runs::Recent).expect("the heap has cells");
        plain::put(&mut words, register, Cell::Bracket(l, r));
    }
    (words, capacity)
}

/// A full store of readings as text is laid: all their symbols, then the brackets side by side,
/// each over three symbols.
fn readings(capacity: usize) -> Lent {
    let (mut words, top) = empty_store(capacity);
    let count = (capacity - top) / 4;
    let (brackets, end) = (top + 3 * count, top + 4 * count);
    for c in top..brackets {
        plain::put(&mut words, c, Cell::Symbol(c as u32));
    }
    for (c, l) in (brackets..end).zip((top..).step_by(3)) {
        plain::put(&mut words, c, Cell::Bracket(l, l + 2));
    }
    plain::put(&mut words, 0, Cell::Bracket(brackets, end - 1));
    (words, end)
}

/// Brackets inside one another, two at each of 60 levels, both around the same run: 2^61 symbols in 122
/// cells.
fn shared() -> Lent {
    let (mut words, top) = empty_store(FIRST_HEAP_CELL + 122);
    plain::put(&mut words, top, Cell::Symbol(65));
    plain::put(&mut words, top + 1, Cell::Symbol(66));
    for c in (top + 2..top + 122).step_by(2) {
        plain::put(&mut words, c, Cell::Bracket(c - 2, c - 1));
        plain::put(&mut words, c + 1, Cell::Bracket(c - 2, c - 1));
    }
    plain::put(&mut words, 0, Cell::Bracket(top + 120, top + 121));
    (words, top + 122)
}

/// Calls of all kinds on the scratch registers and on register 0.
fn mixed_calls() -> Vec<u32> {
    let [p, q, r, s] = SCRATCH;
    let group = [
        Call::Symbol { d: p, code: 65 },
        Call::Symbol { d: q, code: 66 },
        Call::Join { d: r, a: p, b: q },
        Call::Wrap { d: r, a: r },
        Call::Copy { d: s, a: r },
        Call::Open { d: s, a: s },
        Call::First { a: s },
        Call::Rest { d: s, a: s },
        Call::Length { a: 0 },
        Call::Head { d: q, a: 0 },
        Call::Open { d: q, a: q },
        Call::First { a: p },
        Call::Rest { d: q, a: 0 },
        Call::Head { d: q, a: q },
        Call::Clear { d: r },
        Call::Clear { d: s },
    ];
    group.iter().cycle().take(BATCH).flat_map(|call| call.words()).collect()
}

/// The same symbol for the last scratch register, again and again.
fn symbol_calls() -> Vec<u32> {
    Call::Symbol { d: SCRATCH[3], code: 65 }.words().repeat(BATCH)
}

/// A day in calls: readings of four feeds an hour, each a bracket of feed, unit and value. The list
/// is filled up with calls that ask for the number of readings.
fn day_calls() -> Vec<u32> {
    let [hour, reading, part, _] = SCRATCH;
    let mut calls = Vec::new();
    for count in 0..24 {
        calls.push(Call::Clear { d: hour });
        for feed in 11..=14 {
            calls.push(Call::Clear { d: reading });
            for code in [feed, 2, 100 + count] {
                calls.push(Call::Symbol { d: part, code });
                calls.push(Call::Join { d: reading, a: reading, b: part });
            }
            calls.push(Call::Wrap { d: reading, a: reading });
            calls.push(Call::Join { d: hour, a: hour, b: reading });
        }
        calls.push(Call::Join { d: 0, a: 0, b: hour });
    }
    calls.resize(BATCH, Call::Length { a: 0 });
    calls.iter().flat_map(|call| call.words()).collect()
}

/// The store after the day.
fn day() -> Lent {
    let (mut words, top) = empty_store(1024);
    let reply = plain::run(&mut words, top, &day_calls(), &mut vec![0; 2 * BATCH]);
    (words, reply.top)
}

/// What is timed, with the check that precedes it.
#[derive(Clone, Copy)]
enum Work<'a> {
    /// A fresh store in place of the lent one.
    Fresh,
    Check,
    /// A look at register 0.
    Look,
    Collect,
    /// A batch of one LIVE call.
    Live,
    /// A batch of one call.
    Call(&'a [u32]),
    /// A batch of many calls.
    Run(&'a [u32]),
    /// Register 0 printed into so many bytes.
    Print(usize),
    /// A text typed into the last scratch register.
    Type(&'a [u8]),
}

impl<'a> Work<'a> {
    fn name(self) -> &'static str {
        match self {
            Work::Fresh => "fresh",
            Work::Check => "check",
            Work::Look => "look",
            Work::Collect => "collect",
            Work::Live => "live",
            Work::Call(_) => "call",
            Work::Run(_) => "run",
            Work::Print(_) => "print",
            Work::Type(_) => "type",
        }
    }

    /// The calls of the batch, if it is one.
    fn calls(self) -> &'a [u32] {
        const LIVE: [u32; 4] = Call::Live.words();
        match self {
            Work::Live => &LIVE,
            Work::Call(calls) | Work::Run(calls) => calls,
            _ => &[],
        }
    }

    /// The library at this work.
    fn library(self) -> Contender<'a> {
        let told = |raw::Reply { status, rule, value, top }| Reply { status, rule, value, top };
        match self {
            Work::Fresh => Box::new(move |words, _, _| told(raw::fresh(words))),
            Work::Check => Box::new(move |words, top, _| told(raw::check(words, top))),
            Work::Look => Box::new(|words, top, _| {
                let raw::Span { from, to } = raw::look(words, top, 0);
                seen(from, to)
            }),
            Work::Collect => Box::new(move |words, top, _| told(raw::collect(words, top))),
            Work::Live | Work::Call(_) | Work::Run(_) => Box::new(move |words, top, answers| {
                told(raw::run(words, top, self.calls(), answers))
            }),
            Work::Print(bytes) => {
                let mut space = vec![0; bytes];
                Box::new(move |words, top, _| {
                    let raw::Text { status, length, .. } = raw::print(words, top, 0, &mut space);
                    seen(status as usize, length)
                })
            }
            Work::Type(text) => Box::new(move |words, top, _| {
                let raw::Typed { status, rule, value, top } = raw::type_in(words, top, TYPED, text);
                Reply { status, rule, value: value as u32, top }
            }),
        }
    }

    /// An ordinary store at this work.
    fn ordinary<C: Checks + 'a, M: Marks + 'a>(self, mut store: Ordinary<C, M>) -> Contender<'a> {
        match self {
            Work::Fresh => Box::new(|words, _, _| ordinary::fresh(words)),
            Work::Check => Box::new(move |words, top, _| store.check(words, top)),
            Work::Look => Box::new(move |words, top, _| {
                let (from, to) = store.look(words, top, 0);
                seen(from, to)
            }),
            Work::Collect => Box::new(move |words, top, _| store.collect(words, top)),
            Work::Live | Work::Call(_) | Work::Run(_) => {
                Box::new(move |words, top, answers| store.run(words, top, self.calls(), answers))
            }
            Work::Print(bytes) => {
                let mut space = vec![0; bytes];
                Box::new(move |words, top, _| {
                    let Text { status, length, .. } = store.print(words, top, 0, &mut space);
                    seen(status as usize, length)
                })
            }
            Work::Type(text) => Box::new(move |words, top, _| {
                let Typed { status, rule, value, top } = store.type_in(words, top, TYPED, text);
                Reply { status, rule, value: value as u32, top }
            }),
        }
    }

    /// All at this work, but no two that do the same: a fresh store takes no check, and a look and a
    /// print no marking, nor does a text as a rule. Without `walks` those are left out that go through every
    /// run.
    fn contenders(self, walks: bool) -> Columns<Contender<'a>> {
        let checks = !matches!(self, Work::Fresh);
        let reads = matches!(self, Work::Check | Work::Look | Work::Print(_) | Work::Type(_));
        let marks = checks && !reads;
        [
            Some(self.library()),
            walks.then(|| self.ordinary(Usual::default())),
            (walks && marks).then(|| self.ordinary(WithBits::default())),
            checks.then(|| self.ordinary(Better::default())),
        ]
    }
}

/// What a look finds or a print answers, as a reply.
fn seen(from: usize, to: usize) -> Reply {
    Reply { status: 0, rule: 0, value: from as u32, top: to }
}

/// Copies of a store on which work is timed together, and room for answers.
struct Copies {
    words: Vec<Vec<u32>>,
    answers: Vec<u32>,
}

impl Copies {
    /// As many as stay in the nearer caches, and no answers.
    fn several(store: &Lent) -> Copies {
        let count = ((1 << 16) / store.0.len()).clamp(1, 64);
        Copies { words: vec![store.0.clone(); count], answers: Vec::new() }
    }

    /// Those for some work; one for a batch, which is long enough by itself.
    fn of(store: &Lent, work: Work) -> Copies {
        let mut copies = Copies::several(store);
        if matches!(work, Work::Run(_)) {
            copies.words.truncate(1);
        }
        copies.answers = vec![0; work.calls().len() / 2];
        copies
    }

    /// Microseconds of one call on one copy, each of which is written anew before.
    fn time(&mut self, store: &Lent, contender: &mut Contender) -> f64 {
        self.words.iter_mut().for_each(|copy| copy.copy_from_slice(&store.0));
        let start = Instant::now();
        for copy in &mut self.words {
            black_box(contender(black_box(copy), store.1, &mut self.answers));
        }
        1e6 * start.elapsed().as_secs_f64() / self.words.len() as f64
    }
}

/// Microseconds of each contender, once they are seen to do the same.
fn contest(store: &Lent, work: Work, mut contenders: Columns<Contender>) -> Columns<f64> {
    assert_same(store, work, &mut contenders);
    least(store, Copies::of(store, work), contenders)
}

/// Microseconds of each contender. They take turns.
fn least<const N: usize>(
    store: &Lent,
    mut copies: Copies,
    contenders: [Option<Contender>; N],
) -> [Option<f64>; N] {
    let mut timed = contenders.map(|column| column.map(|contender| (contender, f64::MAX)));
    let limit = ROW_TIME * timed.iter().flatten().count() as u32;
    let (start, mut rounds) = (Instant::now(), 0);
    while rounds < LEAST_ROUNDS || start.elapsed() < limit {
        for (contender, least) in timed.iter_mut().flatten() {
            *least = copies.time(store, contender).min(*least);
        }
        rounds += 1;
    }
    timed.map(|column| column.map(|(_, least)| least))
}

fn assert_same(store: &Lent, work: Work, contenders: &mut Columns<Contender>) {
    let after = contenders.iter_mut().flatten().map(|contender| {
        let (mut words, mut answers) = (store.0.clone(), vec![0; work.calls().len() / 2]);
        let reply = contender(&mut words, store.1, &mut answers);
        assert_eq!(reply.status, 0, "a contender refuses the store");
        (reply, words, answers)
    });
    let after: Vec<_> = after.collect();
    assert!(after.windows(2).all(|pair| pair[0] == pair[1]), "contenders differ");
}

/// Asserts that all contenders leave the same bytes of register 0, printed into so many.
fn assert_same_text(store: &Lent, bytes: usize) {
    let texts = [(); 3].map(|()| vec![b'?'; bytes]);
    let [mut library, mut usual, mut better] = texts;
    let raw::Text { status, rule, value, length } = raw::print(&store.0, store.1, 0, &mut library);
    let told = Text { status, rule, value, length };
    assert_eq!(Usual::default().print(&store.0, store.1, 0, &mut usual), told);
    assert_eq!(Better::default().print(&store.0, store.1, 0, &mut better), told);
    assert!(library == usual && library == better, "contenders differ in a byte");
}

/// A time in microseconds, to the nanosecond where it is short.
fn micros(time: f64) -> String {
    if time < 1.0 {
        format!("{time:.3}")
    } else {
        format!("{time:.2}")
    }
}

/// Prints one row: the times, and the library's for each occupied cell, or byte of a text space or of a
/// text, and as a multiple of the others.
fn row(work: Work, of: &str, store: &Lent, walks: bool) {
    let [library, others @ ..] = contest(store, work, work.contenders(walks));
    let library = library.expect("the library is in every row");
    let per_each = match work {
        Work::Run(_) => String::new(),
        Work::Print(bytes) => format!(" {:.2}", 1000.0 * library / bytes as f64),
        Work::Type(text) => format!(" {:.2}", 1000.0 * library / text.len() as f64),
        _ => format!(" {:.2}", 1000.0 * library / store.1 as f64),
    };
    let others = others.map(|other| match other {
        Some(other) => format!(" {} | {:.2} |", micros(other), library / other),
        None => " | |".to_string(),
    });
    println!("| {}, {of} | {} |{per_each} |{}", work.name(), micros(library), others.concat());
}

/// The head of a table in which the third column is the library's time for each of something.
fn table(title: &str, each: &str) {
    println!("\n{title}\n");
    println!(
        "| work | library, µs | per {each}, ns | ordinary, µs | ratio | ordinary with bits, µs \
         | ratio | better, µs | ratio |"
    );
    println!("|---|--:|--:|--:|--:|--:|--:|--:|--:|");
}

/// A row for each of some named stores.
fn rows(work: Work, stores: &[(&str, Lent)]) {
    stores.iter().for_each(|(name, store)| row(work, name, store, true));
}

/// The stores that a reader may have.
fn stores() {
    table("Stores. `live` is a batch of one LIVE call, `run` is one of 1,024 calls.", "cell");
    let stores = [
        ("day", day()),
        ("half dead", half_dead(4096)),
        ("site", site(4096, 2000)),
        ("random", random(4096)),
        ("all live", all_live(4096)),
        ("readings", readings(4096)),
    ];
    rows(Work::Fresh, &[("64 cells", all_live(64)), ("4096 cells", all_live(4096))]);
    rows(Work::Check, &stores);
    rows(Work::Look, &stores[..2]);
    rows(Work::Collect, &stores);
    rows(Work::Live, &stores);
    rows(Work::Run(&day_calls()), &[("day from its start", empty_store(1024))]);
    rows(Work::Run(&mixed_calls()), &stores[1..4]);
    let full = [("forced", one_own(4096)), ("no room", all_live(4096))];
    rows(Work::Run(&symbol_calls()), &full);
}

/// One call or text that collects a full store for a register that holds something, and a collection alone.
fn forced() {
    table("One call or text that has to collect a full store.", "cell or byte");
    let [.., d] = SCRATCH;
    let symbol = Call::Symbol { d, code: 65 };
    let store = moved(half_dead(4096));
    row(Work::Collect, "half dead", &store, true);
    for call in [symbol, Call::Wrap { d, a: 1 }, Call::Join { d, a: 1, b: 2 }] {
        row(Work::Call(&call.words()), &format!("{call}, half dead"), &store, true);
    }
    row(Work::Type(&symbols(100)), "100 symbols, half dead", &store, true);
    let full = copied(all_live(4096));
    row(Work::Collect, "all live", &full, true);
    row(Work::Call(&symbol.words()), &format!("{symbol}, all live, no room"), &full, true);
}

/// Register 0 of some stores, printed whole into a long text space, or as far as it fits.
fn prints() {
    let most = SPACES[SPACES.len() - 1];
    table(&format!("Register 0 printed into {most} bytes."), "byte");
    for (name, store) in [
        ("day", day()),
        ("readings", readings(4096)),
        ("site", site(4096, 2000)),
        ("shared", shared()),
    ] {
        assert_same_text(&store, most);
        row(Work::Print(most), name, &store, true);
    }
    table("Printing 2^61 symbols that are 122 cells, as far as they fit.", "byte");
    for bytes in SPACES {
        assert_same_text(&shared(), bytes);
        row(Work::Print(bytes), &format!("{bytes} bytes"), &shared(), true);
    }
}

/// A text of so many symbols side by side, with codes of all lengths up to five digits.
fn symbols(count: usize) -> Vec<u8> {
    // 65,537 is prime, so no code is 0.
    let codes = (1..=count).map(|i| (i * i % 65_537).to_string());
    codes.collect::<Vec<_>>().join(" ").into_bytes()
}

/// The text of register 0.
fn text_of((words, top): &Lent) -> Vec<u8> {
    let mut space = vec![0; SPACES[SPACES.len() - 1]];
    let Text { status, length, .. } = plain::print(words, *top, 0, &mut space);
    assert_eq!(status, 0, "register 0 has a text that fits");
    space.truncate(length);
    space
}

/// An empty store with just so many cells as a text needs.
fn empty_for(text: &[u8]) -> Lent {
    let (cells, _) = plain::read(text).expect("it is a text");
    empty_store(FIRST_HEAP_CELL + cells.len())
}

/// Texts typed into a store that is empty, or that has to be collected for them.
fn types() {
    table(
        "Texts typed into an empty store with just so many cells, and into one that is collected.",
        "byte",
    );
    let nest = ["(".repeat(MAX_DEPTH), ")".repeat(MAX_DEPTH)].concat().into_bytes();
    let deep = [&nest[..]; 60].join(&b' ');
    for (name, text) in [
        ("4000 symbols", symbols(4000)),
        ("64 brackets inside one another", nest),
        ("the same 60 times side by side", deep),
        ("4000 empty brackets", vec!["()"; 4000].join(" ").into_bytes()),
        ("day", text_of(&day())),
        ("readings", text_of(&readings(4096))),
    ] {
        row(Work::Type(&text), name, &empty_for(&text), true);
    }
    row(Work::Type(&symbols(1000)), "1000 symbols, half dead", &half_dead(4096), true);
    table("Symbols typed into an empty store with just so many cells.", "byte");
    for count in SYMBOLS {
        let text = symbols(count);
        row(Work::Type(&text), &format!("{count} symbols"), &empty_for(&text), true);
    }
}

/// One kind of store at growing capacities.
fn growth(title: &str, store: impl Fn(usize) -> Lent, works: &[Work], overlaps: bool) {
    table(title, "cell");
    for &work in works {
        for cells in SIZES.into_iter().filter(|&cells| cells < MAX_CELLS).chain([MAX_CELLS]) {
            let large = cells > ALL_UP_TO;
            if large && matches!(work, Work::Run(_)) {
                break;
            }
            row(work, &format!("{cells} cells"), &store(cells), !(large && overlaps));
        }
    }
}

fn growths() {
    let calls = mixed_calls();
    let run = Work::Run(&calls);
    let works = [Work::Check, Work::Collect, Work::Live, run];
    growth("Growth, full stores half dead.", half_dead, &works, false);
    growth("Growth, full stores all live.", all_live, &works[1..3], false);
    let site_like = |cells| site(cells, (cells - FIRST_HEAP_CELL) * 49 / 100);
    growth("Growth, brackets that all hold the same symbols.", site_like, &works[1..], true);
}

/// The processor's name, where the system tells it: x86-64 by a name, Arm by numbers.
fn processor() -> String {
    let told = fs::read_to_string("/proc/cpuinfo").unwrap_or_default();
    let field =
        |name: &str| told.lines().find_map(|line| line.strip_prefix(name)?.split(": ").nth(1));
    match (field("model name"), field("CPU implementer"), field("CPU part")) {
        (Some(name), ..) => name.to_string(),
        (None, Some("0x41"), Some(part)) => format!("Arm {}", arm_core(part)),
        (None, Some(maker), Some(part)) => format!("Arm, of maker {maker}, part {part}"),
        _ => "unknown processor".to_string(),
    }
}

/// The name of a core of Arm's own, or its number where it is not one of the usual ones.
fn arm_core(part: &str) -> String {
    let name = match part {
        "0xd03" => "Cortex-A53",
        "0xd07" => "Cortex-A57",
        "0xd08" => "Cortex-A72",
        "0xd0b" => "Cortex-A76",
        "0xd0c" => "Neoverse-N1",
        "0xd40" => "Neoverse-V1",
        "0xd49" => "Neoverse-N2",
        "0xd4f" => "Neoverse-V2",
        other => return format!("part {other}"),
    };
    name.to_string()
}

fn main() {
    println!("Machine: {}, {}", processor(), env::consts::ARCH);
    // Cargo adds a word of its own.
    let told = |wanted: &str| env::args().any(|word| word == wanted);
    if !told("growth") {
        stores();
        forced();
        prints();
        types();
        counts::table();
        files::table();
    }
    if !told("stores") {
        growths();
    }
}
