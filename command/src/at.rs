//! The time that a trace is asked at.

use crate::cli::At;
use crate::failure::{Exit, Failure};
use crate::moment::Moment;
use crate::show;
use crate::state::State;
use trail::Time;

/// The time asked at, or that of the last event. A moment before the start is as time 0, and one past the last time as that: no
/// event lies between.
pub fn time(state: &State, at: &At) -> Result<Time, Failure> {
    let Some(text) = &at.at else {
        return Ok(state.trail.counts().last);
    };
    if !text.is_empty() && text.bytes().all(|byte| byte.is_ascii_digit()) {
        return text.parse().map(Time).map_err(|_| {
            usage(format!(
                "{text} is past the last time, {}; a moment is written 2026-11-17T19:20:45.12",
                u32::MAX
            ))
        });
    }
    let moment = Moment::parse(text).ok_or_else(|| {
        let text = show::name(text.as_bytes());
        usage(format!("\"{text}\" is no time: give a moment, as 2026-11-17T19:20:45.12, or hundredths of a second since the start"))
    })?;
    let start = state.start.ok_or_else(|| {
        usage(format!(
            "the trail has no start, so {text} is no time in it: give hundredths of a second"
        ))
    })?;
    Ok(Time(moment.since(start).clamp(0, u32::MAX.into()) as u32))
}

fn usage(message: String) -> Failure {
    Failure::new(Exit::Usage, message)
}

#[cfg(test)]
mod tests;
