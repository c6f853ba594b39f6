//! The figures of the paper whose version building the trail takes over, beside those of a trail.

use crate::stats::Figures;
use serde_json::{json, Value};

struct Row {
    what: &'static str,
    here: fn(&Figures) -> Option<f64>,
    average: f64,
    least: f64,
    most: f64,
    from: &'static str,
}

const ROWS: [Row; 5] = [
    Row {
        what: "events accepted for each kept",
        here: Figures::reduction,
        average: 7.0,
        least: 4.6,
        most: 15.4,
        from: "FD, figure 9 and section 6.3",
    },
    Row {
        what: "bytes of log for each kept",
        here: Figures::byte_reduction,
        average: 4.4,
        least: 1.9,
        most: 11.8,
        from: "FD to CSR alone, table 10",
    },
    Row {
        what: "versions an entity",
        here: Figures::versions_per_entity,
        average: 3.01,
        least: 1.38,
        most: 17.75,
        from: "FD without CCO, table 13",
    },
    Row {
        what: "the same, cycles collapsed",
        here: |_| None,
        average: 1.26,
        least: 1.05,
        most: 1.37,
        from: "FD, table 12",
    },
    Row {
        what: "the same, one for each event",
        here: Figures::naive_versions_per_entity,
        average: 25.58,
        least: 13.9,
        most: 68.65,
        from: "naive, table 12",
    },
];

const NOTES: &str = "\
The paper's logs are of five machines, a week or two each, 2.8 to 72.6 million events (table 8).
The trail drops an event that an edge says already (REO), not one that only a path of edges says
(REO*, which the paper did not evaluate in detail either), and makes no version where nothing has
left the latest one (RNO). It collapses no cycles (CCO). The paper's REO does not look past an
execve; the trail's does. The trail keeps full dependence (FD), not only that on sources (SD).
";

pub fn text(figures: &Figures) -> String {
    let mut text = line(
        "",
        ["this trail", "paper, average", "least", "most"].map(str::to_string),
        "from",
    );
    for row in &ROWS {
        let here = (row.here)(figures).map_or("-".to_string(), shown);
        let figures = [here, shown(row.average), shown(row.least), shown(row.most)];
        text.push_str(&line(row.what, figures, row.from));
    }
    text.push('\n');
    text.push_str(NOTES);
    text
}

fn shown(figure: f64) -> String {
    format!("{figure:.2}")
}

fn line(what: &str, [here, average, least, most]: [String; 4], from: &str) -> String {
    format!("{what:<29}  {here:>10}  {average:>14}  {least:>5}  {most:>5}  {from}\n")
}

pub fn json(figures: &Figures) -> Value {
    let value = |row: &Row| {
        let Row {
            what,
            average,
            least,
            most,
            from,
            ..
        } = row;
        json!({ "what": what, "here": (row.here)(figures), "average": average, "least": least, "most": most, "from": from })
    };
    ROWS.iter().map(value).collect()
}
