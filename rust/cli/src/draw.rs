//! `draw`: a dump as a drawing, cells as boxes in a row and runs as arcs over them.
//!
//! An arc over cells l to r says that a bracket or register holds them; it has the colour of the
//! boxes that hold it, and their addresses at its top. What no register reaches is pale.

use std::collections::BTreeMap;
use std::ffi::OsString;
use std::io::Write;

use zelmotar::{Store, FIRST_HEAP_CELL, REGISTERS};

use crate::args::{Args, Takes};
use crate::cells::{kind_at, reached, Kind};
use crate::check::damage;
use crate::dump;
use crate::outcome::{Ended, Outcome, Stop};
use crate::svg::{Anchor, Svg};

/// Pixels: a box, the room around the drawing, and between the registers and the heap.
const WIDE: i32 = 52;
const HIGH: i32 = 34;
const EDGE: i32 = 18;
const GAP: i32 = 30;

/// Pixels between an arc and the one above it.
const RISE: i32 = 24;

/// How many colours the arcs take turns with.
const COLOURS: usize = 6;

const STYLE: &str = "\
text { font: 13px sans-serif; fill: #222 }
.small { font-size: 11px; fill: #666 }
.head { font-size: 15px; font-weight: bold }
.cell { fill: #f4f1e8; stroke: #555 }
.free { fill: none; stroke: #bbb; stroke-dasharray: 4 3 }
.dead { fill: #fafafa; stroke: #ddd }
.pale { fill: #c4c4c4 }
.arc { fill: none; stroke-width: 2 }
.arc.dead { fill: none }
.label { font-size: 11px; stroke: #fff; stroke-width: 4px; paint-order: stroke }
.k0 { stroke: #1f6fb4 } .k1 { stroke: #c4501b } .k2 { stroke: #2f8f4e }
.k3 { stroke: #8a4fb0 } .k4 { stroke: #a87f12 } .k5 { stroke: #c03a6b }
.hold { fill: #f4f1e8; stroke-width: 2 }
";

const TAKES: Takes = Takes {
    command: "draw",
    flags: &["--collected"],
    valued: &["--top", "--title"],
    names: "one dump file",
    count: (1, 1),
};

/// Draws the dump that the words of the command line name.
///
/// # Errors
///
/// As [`Stop`] says; [`Stop::Refused`] if the store is not sound.
pub fn command(words: &[OsString], out: &mut dyn Write) -> Ended {
    let args = Args::read(&TAKES, words)?;
    let mut store = dump::read(&args.names[0], args.number("--top")?)?;
    if let Some(sentence) = damage(&store) {
        return Err(Stop::Refused(sentence));
    }
    if args.has("--collected") {
        store.collect().expect("a sound store is collected");
    }
    let title = args.value("--title").map(|title| title.to_string_lossy().into_owned());
    out.write_all(drawn(&store, title.as_deref()).as_bytes())?;
    Ok(Outcome::Done)
}

/// An arc: a run, the cells that hold it, and how it is drawn.
struct Arc {
    l: usize,
    r: usize,
    holders: Vec<usize>,
    is_reached: bool,
    level: i32,
    colour: usize,
}

impl Arc {
    fn overlaps(&self, other: &Arc) -> bool {
        self.l <= other.r && other.l <= self.r
    }

    /// The class of its colour.
    fn class(&self) -> String {
        if self.is_reached {
            format!("k{}", self.colour)
        } else {
            "dead".to_string()
        }
    }

    /// Who holds the run: registers as `r0`, cells as their addresses.
    fn label(&self) -> String {
        const MOST: usize = 4;
        let name = |&c: &usize| if c < REGISTERS { format!("r{c}") } else { c.to_string() };
        let names: Vec<String> = self.holders.iter().take(MOST).map(name).collect();
        let more = if self.holders.len() > MOST { " .." } else { "" };
        format!("{}{more}", names.join(", "))
    }
}

/// The arcs of a sound store, the shortest first, each above those that it overlaps.
fn arcs(store: &Store, is_reached: &[bool]) -> Vec<Arc> {
    let mut runs: BTreeMap<(usize, usize), Vec<usize>> = BTreeMap::new();
    for c in 0..store.top() {
        if let Kind::Run { l, r } = kind_at(store, c) {
            runs.entry((l, r)).or_default().push(c);
        }
    }
    let mut arcs: Vec<Arc> = Vec::new();
    let mut runs: Vec<_> = runs.into_iter().collect();
    runs.sort_by_key(|((l, r), _)| (r - l, *l));
    for (turn, ((l, r), holders)) in runs.into_iter().enumerate() {
        let is_reached = holders.iter().any(|&c| is_reached[c]);
        let mut arc = Arc { l, r, holders, is_reached, level: 1, colour: turn % COLOURS };
        let below = arcs.iter().filter(|other| other.overlaps(&arc)).map(|other| other.level);
        arc.level = below.max().unwrap_or(0) + 1;
        arcs.push(arc);
    }
    arcs
}

/// Where things stand in the drawing.
struct Layout {
    /// The registers that are drawn.
    registers: Vec<usize>,
    /// The top edge of the boxes.
    y: i32,
}

impl Layout {
    /// The left edge of the box of a cell.
    fn x(&self, c: usize) -> i32 {
        match self.registers.iter().position(|&register| register == c) {
            Some(place) => EDGE + place as i32 * WIDE,
            None => self.heap() + (c - FIRST_HEAP_CELL) as i32 * WIDE,
        }
    }

    /// The left edge of the first heap cell.
    fn heap(&self) -> i32 {
        let registers = self.registers.len() as i32;
        EDGE + registers * WIDE + if registers > 0 { GAP } else { 0 }
    }
}

/// The drawing of a sound store.
pub fn drawn(store: &Store, title: Option<&str>) -> String {
    let is_reached = reached(store);
    let arcs = arcs(store, &is_reached);
    let levels = arcs.iter().map(|arc| arc.level).max().unwrap_or(0);
    let head = if title.is_some() { 30 } else { 0 };
    let is_full = |&c: &usize| kind_at(store, c) != Kind::Empty;
    let registers = (0..REGISTERS).filter(is_full).collect();
    let layout = Layout { registers, y: EDGE + head + levels * RISE + 12 };
    let mut svg = Svg::default();
    if let Some(title) = title {
        svg.text((EDGE, EDGE + 10), Anchor::Start, "head", title);
    }
    arcs.iter().for_each(|arc| put_arc(&mut svg, &layout, arc));
    arcs.iter().for_each(|arc| put_label(&mut svg, &layout, arc));
    for c in layout.registers.iter().copied().chain(FIRST_HEAP_CELL..store.top()) {
        put_cell(&mut svg, &layout, store, c, is_reached[c], &arcs);
    }
    let right = put_free(&mut svg, &layout, store).max(put_legend(&mut svg, &layout, &is_reached));
    let what = format!("A store of {} cells, top {}", store.capacity(), store.top());
    svg.finish((right + EDGE, layout.y + HIGH + 54), title.unwrap_or(&what), STYLE)
}

/// Puts what arcs and pale boxes mean. Gives its right edge.
fn put_legend(svg: &mut Svg, layout: &Layout, is_reached: &[bool]) -> i32 {
    let mut legend = "arc: the cells that a bracket or register holds".to_string();
    if is_reached.contains(&false) {
        legend += "; pale: dead, no register reaches it";
    }
    svg.text((EDGE, layout.y + HIGH + 42), Anchor::Start, "small", &legend);
    // A letter is about six pixels wide.
    EDGE + 6 * legend.len() as i32
}

/// The ends of an arc and the height of its middle.
fn span(layout: &Layout, arc: &Arc) -> (i32, i32, i32) {
    (layout.x(arc.l) + 4, layout.x(arc.r) + WIDE - 4, arc.level * RISE)
}

fn put_arc(svg: &mut Svg, layout: &Layout, arc: &Arc) {
    let (from, to, height) = span(layout, arc);
    // The middle of such a curve is at three quarters of the height of its two handles.
    let (y, handle) = (layout.y - 3, layout.y - 3 - height * 4 / 3);
    let path = format!("M{from} {y}C{from} {handle} {to} {handle} {to} {y}");
    svg.path(&path, &format!("arc {}", arc.class()));
}

fn put_label(svg: &mut Svg, layout: &Layout, arc: &Arc) {
    let (from, to, height) = span(layout, arc);
    let class = if arc.is_reached { "label" } else { "label pale" };
    svg.text(((from + to) / 2, layout.y + 1 - height), Anchor::Middle, class, arc.label());
}

/// Puts the box of a cell, with what it holds and its address.
fn put_cell(
    svg: &mut Svg,
    layout: &Layout,
    store: &Store,
    c: usize,
    is_reached: bool,
    arcs: &[Arc],
) {
    let x = layout.x(c);
    let arc = arcs.iter().find(|arc| arc.holders.contains(&c));
    let class = match (is_reached, arc) {
        (false, _) => "dead".to_string(),
        (true, Some(arc)) => format!("hold k{}", arc.colour),
        (true, None) => "cell".to_string(),
    };
    svg.rect((x + 2, layout.y), (WIDE - 4, HIGH), &class);
    let held = match kind_at(store, c) {
        Kind::Symbol(code) => code.to_string(),
        Kind::Run { l, r } => format!("{l}..{r}"),
        Kind::Empty | Kind::Other => "( )".to_string(),
    };
    let (held_class, name_class) = if is_reached { ("", "small") } else { ("pale", "small pale") };
    svg.text((x + WIDE / 2, layout.y + 22), Anchor::Middle, held_class, held);
    let name = if c < REGISTERS { format!("r{c}") } else { c.to_string() };
    svg.text((x + WIDE / 2, layout.y + HIGH + 15), Anchor::Middle, name_class, name);
}

/// Puts a box for the free cells, if there are some. Gives the right edge of all boxes.
fn put_free(svg: &mut Svg, layout: &Layout, store: &Store) -> i32 {
    let x = layout.heap() + (store.top() - FIRST_HEAP_CELL) as i32 * WIDE;
    let free = store.capacity() - store.top();
    if free == 0 {
        return x;
    }
    svg.rect((x + 2, layout.y), (2 * WIDE - 4, HIGH), "free");
    svg.text((x + WIDE, layout.y + 22), Anchor::Middle, "small", format!("{free} free"));
    x + 2 * WIDE
}

#[cfg(test)]
mod tests {
    use super::*;
    use zelmotar_model::{make, random::Random};

    /// The number of elements whose class begins so.
    fn count(drawing: &str, class: &str) -> usize {
        drawing.matches(&format!("class=\"{class}")).count()
    }

    #[test]
    fn every_store_has_its_boxes_and_arcs() {
        let mut random = Random::of("drawings");
        for _ in 0..200 {
            let capacity = make::capacity(&mut random);
            let (words, top) = make::sound(&mut random, capacity, make::Runs::Any);
            let store = Store::from_parts(words, top);
            let is_reached = reached(&store);
            let drawing = drawn(&store, Some("a & b"));
            let dead = is_reached.iter().filter(|&&it| !it).count();
            assert_eq!(drawing.matches("rx=\"3\" class=\"dead\"").count(), dead);
            let full = (0..REGISTERS).filter(|&c| kind_at(&store, c) != Kind::Empty).count();
            let free = usize::from(top < capacity);
            assert_eq!(drawing.matches("rx=\"3\"").count(), full + top - FIRST_HEAP_CELL + free);
            assert_eq!(count(&drawing, "arc "), arcs(&store, &is_reached).len());
            assert!(drawing.contains("a &amp; b"));
        }
    }

    #[test]
    fn no_two_arcs_of_one_height_overlap() {
        let mut random = Random::of("arcs");
        for _ in 0..200 {
            let (words, top) = make::sound(&mut random, 40, make::Runs::Any);
            let store = Store::from_parts(words, top);
            let arcs = arcs(&store, &reached(&store));
            for (i, arc) in arcs.iter().enumerate() {
                assert!(arcs[..i]
                    .iter()
                    .all(|other| other.level != arc.level || !other.overlaps(arc)));
            }
        }
    }
}
