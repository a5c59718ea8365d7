//! A picture of a month: how full each file's round table is, file by file, as an SVG.

use std::fmt::Write;

use keccak_tables::month::{Fill, Month};
use keccak_tables::{Parameters, keccak_rnd};

/// The picture's size, and where the bars stand in it.
const WIDTH: f64 = 1050.0;
const HEIGHT: f64 = 460.0;
const LEFT: f64 = 70.0;
const TOP: f64 = 130.0;
const BARS_WIDTH: f64 = 900.0;
const BARS_HEIGHT: f64 = 270.0;
const RIGHT: f64 = LEFT + BARS_WIDTH;
const BOTTOM: f64 = TOP + BARS_HEIGHT;

const FULL: &str = "#2e7d4f";
const USUAL: &str = "#4a78a8";
const EMPTY: &str = "#c0483c";
const DARK: &str = "#222222";
const GREY: &str = "#555555";

/// The picture of a month of these counts.
pub fn svg(parameters: Parameters, counts: &[u64], month: &Month) -> String {
    let fills: Vec<Fill> = counts.iter().map(|&count| fill_of(parameters, count)).collect();
    let title = "Fullness of the round tables, file by file";
    let mut svg = format!(
        "<svg xmlns=\"http://www.w3.org/2000/svg\" viewBox=\"0 0 {WIDTH} {HEIGHT}\" font-family=\"sans-serif\" \
         font-size=\"14\" role=\"img\" aria-label=\"{title}\">\n\
         <rect width=\"{WIDTH}\" height=\"{HEIGHT}\" fill=\"#ffffff\"/>\n\
         <text x=\"{LEFT}\" y=\"34\" font-size=\"22\">{title}</text>\n"
    );
    svg += &text(LEFT, 58.0, "start", GREY, &summary(parameters, month));
    svg += &frame();
    svg += &bars(counts, &fills, month);
    svg += &files(counts.len());
    svg += &level(month);
    svg + "</svg>\n"
}

/// The rows of a table of so many operations, as the call has them that the month was made by.
pub fn fill_of(parameters: Parameters, count: u64) -> Fill {
    let total = keccak_rnd::keccak_rnd_height_with(parameters, count as usize);
    Fill {
        used: count * parameters.rounds,
        total: total.expect("the month was accepted") as u64,
    }
}

fn summary(parameters: Parameters, month: &Month) -> String {
    let files = many(month.files, "file");
    let operations = many(month.operations, "operation");
    let used = rows(month.used_rows, month.used_rows + month.padding_rows);
    let rounds = many(parameters.rounds, "round");
    format!(
        "{files}, {operations}: {used}; {rounds}, floor {}",
        grouped(parameters.floor)
    )
}

/// So many of so many rows, and the fraction in percent, with a tenth, rounded down.
fn rows(used: u64, all: u64) -> String {
    let words = format!("{} of {} rows used", grouped(used), grouped(all));
    if all == 0 {
        return words;
    }
    format!("{words}, {}", percent(used, all))
}

fn percent(part: u64, whole: u64) -> String {
    let tenths = u128::from(part) * 1000 / u128::from(whole);
    format!("{}.{} %", tenths / 10, tenths % 10)
}

/// So many of something.
fn many(number: u64, noun: &str) -> String {
    let ending = if number == 1 { "" } else { "s" };
    format!("{} {noun}{ending}", grouped(number))
}

/// A number with a comma before every three digits.
fn grouped(number: u64) -> String {
    let digits = number.to_string();
    let mut text = String::new();
    for (place, digit) in digits.chars().enumerate() {
        if place > 0 && (digits.len() - place).is_multiple_of(3) {
            text.push(',');
        }
        text.push(digit);
    }
    text
}

fn text(x: f64, y: f64, anchor: &str, colour: &str, words: &str) -> String {
    format!("<text x=\"{x:.1}\" y=\"{y:.1}\" text-anchor=\"{anchor}\" fill=\"{colour}\">{words}</text>\n")
}

/// Padding is what the bars leave of the ground; lines at each quarter.
fn frame() -> String {
    let mut svg =
        format!("<rect x=\"{LEFT}\" y=\"{TOP}\" width=\"{BARS_WIDTH}\" height=\"{BARS_HEIGHT}\" fill=\"#eceff3\"/>\n");
    for quarter in 0..=4 {
        let y = BOTTOM - BARS_HEIGHT * f64::from(quarter) / 4.0;
        let _ = writeln!(
            svg,
            "<line x1=\"{LEFT}\" y1=\"{y:.1}\" x2=\"{RIGHT}\" y2=\"{y:.1}\" stroke=\"#c3c9d1\"/>"
        );
        svg += &text(LEFT - 8.0, y + 5.0, "end", GREY, &format!("{} %", 25 * quarter));
    }
    svg
}

/// A bar for each file. An empty table has a thin one, so that it is seen; the fullest and the emptiest have a colour and a mark.
fn bars(counts: &[u64], fills: &[Fill], month: &Month) -> String {
    let wide = BARS_WIDTH / fills.len().max(1) as f64;
    let gap = if wide > 4.0 { wide / 8.0 } else { 0.0 };
    let first = |shown: Option<Fill>| fills.iter().position(|&fill| Some(fill) == shown);
    let [fullest, emptiest] = [month.fullest, month.emptiest].map(first);
    let mut svg = String::new();
    for (at, (fill, count)) in fills.iter().zip(counts).enumerate() {
        let high = (BARS_HEIGHT * fill.used as f64 / fill.total as f64).max(2.0);
        let colour = match Some(at) {
            at if at == fullest => FULL,
            at if at == emptiest => EMPTY,
            _ => USUAL,
        };
        let _ = writeln!(
            svg,
            "<rect x=\"{:.3}\" y=\"{:.2}\" width=\"{:.3}\" height=\"{high:.2}\" fill=\"{colour}\">\
             <title>file {}: {}, {}</title></rect>",
            LEFT + wide * at as f64 + gap / 2.0,
            BOTTOM - high,
            wide - gap,
            grouped(at as u64 + 1),
            many(*count, "operation"),
            rows(fill.used, fill.total),
        );
    }
    for (name, at, colour, place, legend) in [
        ("fullest", fullest, FULL, [TOP - 2.0, -9.0], 84.0),
        ("emptiest", emptiest, EMPTY, [BOTTOM + 2.0, 9.0], 105.0),
    ] {
        if let Some(at) = at {
            let [point, base] = place;
            svg += &mark(LEFT + wide * (at as f64 + 0.5), point, base, colour);
            svg += &mark(LEFT + 6.0, legend - 5.0 - base / 2.0, base, colour);
            let Fill { used, total } = fills[at];
            let words = format!("{name}: file {}, {}", grouped(at as u64 + 1), rows(used, total));
            svg += &text(LEFT + 18.0, legend, "start", DARK, &words);
        }
    }
    svg
}

/// A triangle: where its point is, and how far below it its base.
fn mark(x: f64, point: f64, base: f64, colour: &str) -> String {
    let [left, right, base] = [x - 6.0, x + 6.0, point + base];
    format!("<polygon points=\"{x:.1},{point:.1} {left:.1},{base:.1} {right:.1},{base:.1}\" fill=\"{colour}\"/>\n")
}

/// The files' numbers under the bars: some ten of them, as the lines of the text are counted, from 1.
fn files(count: usize) -> String {
    let wide = BARS_WIDTH / count.max(1) as f64;
    let step = steps().find(|step| step * 10 >= count).expect("there is no last");
    let mut svg = String::new();
    for number in (step..=count).step_by(step) {
        let x = LEFT + wide * (number as f64 - 0.5);
        svg += &text(x, BOTTOM + 26.0, "middle", GREY, &grouped(number as u64));
    }
    svg + &text((LEFT + RIGHT) / 2.0, BOTTOM + 46.0, "middle", GREY, "file")
}

/// 1, 2, 5, 10, 20, 50 and so on.
fn steps() -> impl Iterator<Item = usize> {
    (0..).flat_map(|power| [1, 2, 5].map(|digit| digit * 10usize.pow(power)))
}

/// A line at what is used of all rows together.
fn level(month: &Month) -> String {
    let all = month.used_rows + month.padding_rows;
    if all == 0 {
        return text(
            (LEFT + RIGHT) / 2.0,
            (TOP + BOTTOM) / 2.0 - 10.0,
            "middle",
            GREY,
            "no files",
        );
    }
    let y = BOTTOM - BARS_HEIGHT * month.used_rows as f64 / all as f64;
    let mut svg = format!(
        "<line x1=\"{LEFT}\" y1=\"{y:.1}\" x2=\"{RIGHT}\" y2=\"{y:.1}\" stroke=\"{DARK}\" stroke-width=\"1.5\" \
         stroke-dasharray=\"7 5\"/>\n"
    );
    svg += &text(RIGHT + 8.0, y - 2.0, "start", DARK, "all files");
    svg + &text(RIGHT + 8.0, y + 15.0, "start", DARK, &percent(month.used_rows, all))
}
