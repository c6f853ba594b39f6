//! What the benchmark prints.

use crate::growth::{Growth, BASE};
use crate::line::{Goal, Line};
use crate::real::Reduction;
use crate::studies::{Studies, STUDIES};
use reference::Counts;

/// The paper's events a second.
const PAPER: f64 = 860_000.0;

const HEADING: &str = "\
Ratios of medians of 9 runs, all from this one run on this machine, in time
that the thread itself ran; both sides are built for release. Below 1.00 the
library is faster.

library  is lent the tables at each call: it tests them (refusal 16), a batch
         then builds its index of edges, a trace makes its passes.
(a)      keeps rows, a hash map of ways and lists of edges of its own from call
         to call; it trusts them, tests nothing and rebuilds nothing. Where it
         is made anew it takes over the lent tables at each batch, untested.
(b)      batch: one pass that decodes the file, and on a trail with rows one
         pass that reads the tables; trace and kept log: one pass that reads
         the tables. Each number is read once and added up; the compiler
         makes vector code of it.
(b) rows the same read of the tables a row at a time, each row tested to be
         within its table.

Buffers: those of both sides are allocated, and written by a round that does
not count, before any time is taken. Each run starts from counts and rows put
back to what they were (the peer cleared, its memory kept). Sides run in turn.
";

pub fn print_heading() {
    println!("{HEADING}");
    print_columns(
        "",
        ["library/(a)", "library/(b)", "/(b) rows", "events/s"].map(String::from),
    );
}

pub fn print_line(line: &Line) {
    let events = line.events_a_second().map_or("-".to_string(), thousands);
    let ratios = [line.to_peer(), Some(line.to_floor()), line.to_row_floor()];
    let [to_peer, to_floor, to_row_floor] =
        ratios.map(|value| value.map_or("-".to_string(), ratio));
    print_columns(&line.name, [to_peer, to_floor, to_row_floor, events]);
}

fn print_columns(name: &str, [first, second, third, fourth]: [String; 4]) {
    println!("{name:<70}{first:>12}{second:>12}{third:>12}{fourth:>13}");
}

fn ratio(ratio: f64) -> String {
    if ratio < 100.0 {
        format!("{ratio:.2}")
    } else {
        format!("{ratio:.0}")
    }
}

/// A number in groups of three digits.
fn thousands(number: f64) -> String {
    let digits = format!("{number:.0}");
    let mut text = String::new();
    for (place, digit) in digits.chars().enumerate() {
        if place > 0 && (digits.len() - place) % 3 == 0 {
            text.push(',');
        }
        text.push(digit);
    }
    text
}

pub fn print_growth(growth: &Growth) {
    println!("\nThe worst tables take as many passes as they have versions, up to 65,536.");
    println!("\nCost of an event in a file with few repeats, to the cost at {BASE} edges");
    let titles = ("edges", "library", "(a)", "library/(a)", "library/(b)");
    println!(
        "{:>9}{:>12}{:>12}{:>14}{:>14}",
        titles.0, titles.1, titles.2, titles.3, titles.4
    );
    for (edges, line) in &growth.lines {
        let own = ratio(growth.ratio(line));
        let peer = ratio(growth.peer_ratio(line));
        let to_peer = line.to_peer().map_or("-".to_string(), ratio);
        let to_floor = ratio(line.to_floor());
        println!("{edges:>9}{own:>12}{peer:>12}{to_peer:>14}{to_floor:>14}");
    }
}

pub fn print_studies(all: &[Studies]) {
    println!(
        "\nForward trace of {STUDIES} studies in one call of the library, to a call for each,"
    );
    println!("to a call of one of them and to (a), and beside it a call of one to (a)");
    let titles = ["to each", "to one", "to (a)", "one to (a)"].map(String::from);
    print_columns("", titles);
    for studies in all {
        let ratios = [
            studies.to_in_turn(),
            studies.to_one(),
            studies.to_peer(),
            studies.one_to_peer(),
        ];
        print_columns(&studies.name, ratios.map(ratio));
    }
}

pub fn print_reductions(reductions: &[Reduction]) {
    println!("\nReal files: accepted to kept events, the same with one edge for each two");
    println!("entities, versions an entity, and the same with a version for each event");
    for one in reductions {
        let Counts {
            entities,
            versions,
            edges,
            accepted,
            ..
        } = one.counts;
        println!(
            "{:<11}{entities:>5} entities{accepted:>6} accepted{edges:>6} kept{versions:>6} versions{:>8.2}{:>8.2}{:>8.2}{:>8.2}",
            one.name,
            one.factor(),
            one.by_pairs(),
            one.versions(),
            one.naive(),
        );
    }
    let mean = |value: fn(&Reduction) -> f64| {
        let logs: f64 = reductions.iter().map(|one| value(one).ln()).sum();
        (logs / reductions.len() as f64).exp()
    };
    println!(
        "{:<61}{:>8.2}{:>8.2}{:>8.2}{:>8.2}",
        "geometric mean",
        mean(Reduction::factor),
        mean(Reduction::by_pairs),
        mean(Reduction::versions),
        mean(Reduction::naive),
    );
}

pub fn print_goals(lines: &[Line], growth: &Growth) {
    println!("\nGoals");
    for line in of_goal(lines, &[Goal::Batch, Goal::RepeatBatch]) {
        let value = line.to_peer().unwrap_or(0.0);
        print_goal(&format!("no slower than (a), {}", line.name), value, 1.0);
    }
    for line in of_goal(lines, &[Goal::RepeatBatch]) {
        let events = line.events_a_second().unwrap_or(0.0);
        print_goal(
            "the paper's 860,000 events/s, to those here",
            PAPER / events,
            1.0,
        );
    }
    let name = "cost of an event at 262,144 edges to that at 4,096";
    print_goal(name, growth.largest(), 1.5);
    print_reads(lines, "the plain read (b)", |line| Some(line.to_floor()));
    print_reads(lines, "(b) rows", Line::to_row_floor);
}

/// The goals set by a read of the tables.
fn print_reads(lines: &[Line], read: &str, to_read: impl Fn(&Line) -> Option<f64>) {
    for (goal, most) in [(Goal::Trace, 4.0), (Goal::SoundnessTest, 3.0)] {
        for line in of_goal(lines, &[goal]) {
            let name = format!("to {read}, {}", line.name);
            print_goal(&name, to_read(line).unwrap_or(0.0), most);
        }
    }
}

/// The lines that count for one of the goals.
fn of_goal<'a>(lines: &'a [Line], goals: &'a [Goal]) -> impl Iterator<Item = &'a Line> {
    lines.iter().filter(|line| goals.contains(&line.goal))
}

fn print_goal(name: &str, value: f64, most: f64) {
    let verdict = if value <= most { "met" } else { "not met" };
    let value = ratio(value);
    println!("{verdict:>8}  {value:>8} (at most {most:.1})  {name}");
}
