//! The two plots of docs/BENCHMARKS.md, drawn from the tables of that page, so that no figure stands
//! in two places: how time grows, and ratios.

use crate::svg::{Anchor, Svg};

/// The headings under which the tables stand, each with what its plot is called.
const GROWTH: (&str, &str) =
    ("### How time grows beyond the limit", "The library's time for each cell, in nanoseconds");
const RATIOS: (&str, &str) =
    ("### Before and now", "The library's time over that of an ordinary store, x86-64");

const STYLE: &str = "\
text { font: 12px sans-serif; fill: #222 }
.head { font-size: 15px; font-weight: bold }
.small { font-size: 11px; fill: #666 }
.grid { stroke: #e4e4e4; fill: none }
.limit { stroke: #777; stroke-dasharray: 3 4; fill: none }
.one { stroke: #444; stroke-width: 2; fill: none }
.line { fill: none; stroke-width: 2 }
.dashed { stroke-dasharray: 7 4 }
.s0 { stroke: #1f6fb4 } .s1 { stroke: #c4501b } .s2 { stroke: #2f8f4e }
.d0 { fill: #1f6fb4 } .d1 { fill: #c4501b } .d2 { fill: #2f8f4e }
.open { fill: #fff; stroke: #c4501b; stroke-width: 2 }
";

/// The cells of the first table under a heading, its first row first and the rule below that left out.
///
/// # Errors
///
/// A sentence, if there is no such table.
fn table(page: &str, heading: &str) -> Result<Vec<Vec<String>>, String> {
    let after = page.split_once(heading).ok_or_else(|| format!("there is no `{heading}`"))?.1;
    let lines = after.lines().skip_while(|line| !line.starts_with('|'));
    let rows =
        lines.take_while(|line| line.starts_with('|')).filter(|line| !line.starts_with("|-"));
    let rows: Vec<Vec<String>> = rows
        .map(|row| row.trim_matches('|').split('|').map(|cell| cell.trim().to_string()).collect())
        .collect();
    if rows.len() < 2 {
        return Err(format!("there is no table below `{heading}`"));
    }
    Ok(rows)
}

/// The number at the start of a cell, as `4,096` or `1.03 (1.02 to 1.03)`.
fn number(cell: &str) -> Result<f64, String> {
    let first = cell.split(' ').next().unwrap_or_default().replace(',', "");
    first.parse().map_err(|_| format!("`{cell}` does not begin with a number"))
}

/// The numbers of a row behind its name.
fn numbers(row: &[String]) -> Result<Vec<f64>, String> {
    row[1..].iter().map(|cell| number(cell)).collect()
}

/// Pixels of the plot of growth: the left and upper edge of its field, and its width and height.
const FIELD: (i32, i32, i32, i32) = (50, 50, 520, 240);

/// The scales of the plot of growth.
struct Scales {
    sizes: Vec<f64>,
    most: f64,
}

impl Scales {
    /// Where a size stands, on a scale of powers.
    fn x(&self, size: f64) -> i32 {
        let (first, last) = (self.sizes[0].log2(), self.sizes[self.sizes.len() - 1].log2());
        FIELD.0 + (f64::from(FIELD.2) * (size.log2() - first) / (last - first)) as i32
    }

    /// Where a time stands.
    fn y(&self, time: f64) -> i32 {
        FIELD.1 + FIELD.3 - (f64::from(FIELD.3) * time / self.most) as i32
    }

    /// Puts a line for each nanosecond, the sizes below, and where the limit is.
    fn put(&self, svg: &mut Svg, shown: &[String]) {
        let (left, top, right, bottom) = (FIELD.0, FIELD.1, FIELD.0 + FIELD.2, FIELD.1 + FIELD.3);
        for time in 0..=self.most as i32 {
            let y = self.y(f64::from(time));
            svg.line((left, y), (right, y), "grid");
            svg.text((left - 8, y + 4), Anchor::End, "small", time);
        }
        for (&size, shown) in self.sizes.iter().zip(shown) {
            svg.text((self.x(size), bottom + 18), Anchor::Middle, "small", shown);
        }
        svg.text((right, bottom + 36), Anchor::End, "small", "cells of the store");
        let limit = self.x(zelmotar::MAX_CELLS as f64);
        svg.line((limit, top), (limit, bottom), "limit");
        svg.text((limit + 6, bottom - 8), Anchor::Start, "small", "the library's limit");
    }
}

/// The plot of growth: a line for each row of the table.
///
/// # Errors
///
/// A sentence, if the page has no such table.
pub fn growth(page: &str) -> Result<String, String> {
    let rows = table(page, GROWTH.0)?;
    let lines: Vec<Vec<f64>> =
        rows[1..].iter().map(|row| numbers(row)).collect::<Result<_, _>>()?;
    let most = lines.iter().flatten().fold(0.0_f64, |most, &it| most.max(it)).ceil();
    let scales = Scales { sizes: numbers(&rows[0])?, most };
    let mut svg = Svg::default();
    svg.text((FIELD.0, 26), Anchor::Start, "head", GROWTH.1);
    scales.put(&mut svg, &rows[0][1..]);
    for (turn, (row, times)) in rows[1..].iter().zip(&lines).enumerate() {
        let points = scales.sizes.iter().zip(times).map(|(&s, &t)| (scales.x(s), scales.y(t)));
        put_line(&mut svg, turn, &points.collect::<Vec<_>>());
        let place = (FIELD.0 + FIELD.2 + 24, FIELD.1 + 20 + 24 * turn as i32);
        put_legend(&mut svg, turn, place, &row[0]);
    }
    Ok(svg.finish((800, FIELD.1 + FIELD.3 + 50), GROWTH.1, STYLE))
}

/// The classes of a line: a colour for each store, and dashes for every second row, which is LIVE.
fn line_class(turn: usize) -> String {
    format!("line s{}{}", turn / 2, if turn % 2 == 1 { " dashed" } else { "" })
}

fn put_line(svg: &mut Svg, turn: usize, points: &[(i32, i32)]) {
    let path: Vec<String> = points.iter().map(|(x, y)| format!("{x} {y}")).collect();
    svg.path(&format!("M{}", path.join("L")), &line_class(turn));
    points.iter().for_each(|&point| svg.dot(point, &format!("d{}", turn / 2)));
}

fn put_legend(svg: &mut Svg, turn: usize, (x, y): (i32, i32), name: &str) {
    svg.line((x, y - 4), (x + 28, y - 4), &line_class(turn));
    svg.text((x + 36, y), Anchor::Start, "", name);
}

/// Pixels of the plot of ratios: the left edge of its field, that of its first row, its width, and
/// from row to row.
const ROWS: (i32, i32, i32, i32) = (184, 80, 500, 18);

/// Where a ratio stands, on a scale up to 1.25.
fn ratio_x(ratio: f64) -> i32 {
    ROWS.0 + (f64::from(ROWS.2) * ratio.min(1.25) / 1.25) as i32
}

/// The plot of ratios: for each row of the table a full dot for the ratio to the ordinary store, and
/// an open one for that to the better store.
///
/// # Errors
///
/// A sentence, if the page has no such table.
pub fn ratios(page: &str) -> Result<String, String> {
    let rows = table(page, RATIOS.0)?;
    let column = |name: &str| {
        let found = rows[0].iter().position(|cell| cell == name);
        found.ok_or_else(|| format!("there is no column `{name}` below `{}`", RATIOS.0))
    };
    let (ordinary, better) = (column("to ordinary, now")?, column("to better, now")?);
    let bottom = ROWS.1 + ROWS.3 * (rows.len() as i32 - 1);
    let mut svg = Svg::default();
    put_ratio_axes(&mut svg, bottom);
    for (turn, row) in rows[1..].iter().enumerate() {
        let y = ROWS.1 + ROWS.3 * turn as i32;
        svg.text((ROWS.0 - 12, y + 4), Anchor::End, "", &row[0]);
        svg.line((ROWS.0, y), (ROWS.0 + ROWS.2, y), "grid");
        svg.dot((ratio_x(number(&row[better])?), y), "open");
        svg.dot((ratio_x(number(&row[ordinary])?), y), "d0");
    }
    Ok(svg.finish((714, bottom + 26), RATIOS.1, STYLE))
}

/// Puts the heading, what the dots mean, and a line for each quarter.
fn put_ratio_axes(svg: &mut Svg, bottom: i32) {
    svg.text((16, 26), Anchor::Start, "head", RATIOS.1);
    svg.dot((22, 46), "d0");
    svg.text((34, 50), Anchor::Start, "", "to the ordinary store");
    svg.dot((202, 46), "open");
    svg.text((214, 50), Anchor::Start, "", "to the better one; left of 1.00 the library is faster");
    for quarter in 0..=5 {
        let (x, class) =
            (ratio_x(f64::from(quarter) / 4.0), if quarter == 4 { "one" } else { "grid" });
        svg.line((x, ROWS.1 - 12), (x, bottom - 4), class);
        let ratio = format!("{:.2}", f64::from(quarter) / 4.0);
        svg.text((x, bottom + 12), Anchor::Middle, "small", ratio);
    }
}

#[cfg(test)]
mod tests {
    use super::*;

    fn docs(name: &str) -> String {
        let path = format!("{}/../../docs/{name}", env!("CARGO_MANIFEST_DIR"));
        std::fs::read_to_string(path).unwrap()
    }

    #[test]
    fn the_plots_in_the_docs_are_of_the_tables_in_the_docs() {
        let page = docs("BENCHMARKS.md");
        assert!(growth(&page).unwrap() == docs("growth.svg"), "tools/plots draws it anew");
        assert!(ratios(&page).unwrap() == docs("ratios.svg"), "tools/plots draws it anew");
    }

    #[test]
    fn every_figure_has_its_dot() {
        let page = docs("BENCHMARKS.md");
        let rows = table(&page, GROWTH.0).unwrap();
        let figures = (rows.len() - 1) * (rows[0].len() - 1);
        assert_eq!(growth(&page).unwrap().matches("<circle").count(), figures);
        let rows = table(&page, RATIOS.0).unwrap();
        assert_eq!(ratios(&page).unwrap().matches("<circle").count(), 2 * rows.len());
    }

    #[test]
    fn a_page_without_its_tables_is_refused() {
        assert!(growth("# Benchmarks").is_err());
        assert!(ratios("### Before and now\n\nnothing\n").is_err());
        let wrong =
            "### How time grows beyond the limit\n| work | 64 |\n|---|--:|\n| collect | x |\n";
        assert_eq!(growth(wrong), Err("`x` does not begin with a number".to_string()));
    }
}
