//! How many rows of each table are used, and how long the rest will last.

use crate::show;
use crate::state::State;
use serde_json::{json, Value};
use trail::{EdgeNo, MOST_ACCEPTED, MOST_EDGES, MOST_ENTITIES, MOST_VERSIONS};

/// From this many hundredths of a table on, there is a warning.
const WARN_PERCENT: u64 = 80;

/// A table, or something else of which there is only so much.
pub struct Table {
    what: &'static str,
    used: u64,
    most: u64,
    /// The hundredths of a second in which it was used.
    span: u64,
}

/// The three tables, the events that may be accepted, and the time that may pass.
pub fn tables(state: &State) -> [Table; 5] {
    let counts = state.trail.counts();
    let last = u64::from(counts.last.0);
    let first = state
        .trail
        .edge(EdgeNo(0))
        .map_or(0, |edge| edge.time.0.into());
    let table = |what, used: u32, most: u32, span| Table {
        what,
        used: used.into(),
        most: most.into(),
        span,
    };
    [
        table("entities", counts.entities, MOST_ENTITIES, last - first),
        table("versions", counts.versions, MOST_VERSIONS, last - first),
        table("edges", counts.edges, MOST_EDGES, last - first),
        table("events", counts.accepted, MOST_ACCEPTED, last - first),
        table("time", counts.last.0, u32::MAX, last),
    ]
}

impl Table {
    fn left(&self) -> u64 {
        self.most - self.used
    }

    fn percent(&self) -> u64 {
        100 * self.used / self.most
    }

    fn warns(&self) -> bool {
        100 * self.used >= WARN_PERCENT * self.most
    }

    /// The hundredths of a second that what is left lasts, if it is used at the rate so far.
    fn lasts(&self) -> Option<u64> {
        let lasts = u128::from(self.left()) * u128::from(self.span);
        (self.span > 0 && self.used > 0).then(|| (lasts / u128::from(self.used)) as u64)
    }
}

pub fn text(tables: &[Table]) -> String {
    let mut text = line(
        "",
        ["used", "of", "left", "full"].map(str::to_string),
        "lasts at this rate",
    );
    for table in tables {
        let [used, most, left] = [table.used, table.most, table.left()].map(show::number);
        let percent = format!("{}%", table.percent());
        let lasts = table
            .lasts()
            .map_or("cannot tell yet".to_string(), duration);
        text.push_str(&line(table.what, [used, most, left, percent], &lasts));
    }
    for table in tables.iter().filter(|table| table.warns()) {
        let (what, percent) = (table.what, table.percent());
        text.push_str(&format!(
            "warning: {what}: {percent}% used; once full, a recording that needs more is refused\n"
        ));
    }
    text
}

fn line(what: &str, [used, most, left, percent]: [String; 4], lasts: &str) -> String {
    format!("{what:<8}  {used:>13}  {most:>13}  {left:>13}  {percent:>4}  {lasts}\n")
}

pub fn json(tables: &[Table]) -> Value {
    let value = |table: &Table| {
        json!({
            "table": table.what,
            "used": table.used,
            "most": table.most,
            "left": table.left(),
            "percent": table.percent(),
            "warning": table.warns(),
            "lasts": table.lasts(),
        })
    };
    tables.iter().map(value).collect()
}

/// `about 12 days`, of hundredths of a second.
fn duration(hundredths: u64) -> String {
    let minutes = hundredths / 100 / 60;
    let (hours, days) = (minutes / 60, minutes / 60 / 24);
    match () {
        _ if minutes < 1 => "under a minute".to_string(),
        _ if hours < 2 => format!("about {}", show::count(minutes, "minute", "minutes")),
        _ if days < 2 => format!("about {hours} hours"),
        _ if days < 730 => format!("about {days} days"),
        _ => format!("about {} years", show::number(days / 365)),
    }
}

#[cfg(test)]
mod tests {
    use super::*;

    fn table(used: u64, most: u64, span: u64) -> Table {
        Table {
            what: "edges",
            used,
            most,
            span,
        }
    }

    #[test]
    fn warns_from_eighty_percent_on() {
        assert!(!table(79, 100, 1).warns());
        assert!(table(80, 100, 1).warns());
        assert!(!table(3276, 4096, 1).warns());
        assert!(table(3277, 4096, 1).warns());
    }

    #[test]
    fn lasts_as_long_as_the_rate_says() {
        assert_eq!(table(25, 100, 1000).lasts(), Some(3000));
        assert_eq!(table(100, 100, 1000).lasts(), Some(0));
        assert_eq!(table(0, 100, 1000).lasts(), None);
        assert_eq!(table(25, 100, 0).lasts(), None);
        assert_eq!(
            table(1, 262144, u32::MAX.into()).lasts(),
            Some(262143 * u64::from(u32::MAX))
        );
    }

    #[test]
    fn durations_in_words() {
        let minute = 6000;
        let hour = 60 * minute;
        let shown = [
            0,
            minute,
            119 * minute,
            2 * hour,
            47 * hour,
            48 * hour,
            496 * 24 * hour,
            730 * 24 * hour,
        ]
        .map(duration);
        assert_eq!(
            shown,
            [
                "under a minute",
                "about 1 minute",
                "about 119 minutes",
                "about 2 hours",
                "about 47 hours",
                "about 2 days",
                "about 496 days",
                "about 2 years"
            ]
        );
    }
}
