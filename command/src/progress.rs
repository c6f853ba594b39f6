//! A progress bar on standard error, if that is a terminal and there is much to do.

use indicatif::{ProgressBar, ProgressStyle};
use std::io::{stderr, IsTerminal};

/// Fewer steps are done before one could read the bar.
const LEAST: usize = 9;

pub fn bar(steps: usize, of_what: &'static str) -> ProgressBar {
    if steps < LEAST || !stderr().is_terminal() {
        return ProgressBar::hidden();
    }
    let form = "{bar:40} {human_pos} of {human_len} {msg}, {eta} left";
    let style = ProgressStyle::with_template(form).unwrap_or_else(|_| ProgressStyle::default_bar());
    ProgressBar::new(steps as u64)
        .with_style(style)
        .with_message(of_what)
}
