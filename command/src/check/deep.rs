//! The kept log taken in again: its trail has to give the same answers.

use crate::failure::{Exit, Failure};
use crate::grow::grow;
use crate::log::kept_log;
use crate::progress;
use crate::recording::Paths;
use crate::show;
use crate::state::State;
use std::path::Path;
use std::thread;
use trail::{EntityNo, Kind, Refusal, Sort, Time, Trace, Trail, MOST_ENTITIES};

/// At most so many traces are compared, 5 for each entity of a full trail: there they are two minutes of work for two threads,
/// each of which answers for one of the trails.
const MOST_TRACES: usize = 5 * MOST_ENTITIES as usize;
/// Of an entity at most so many intakes are asked about, the last among them.
const MOST_INTAKES: usize = 8;

/// How many traces were compared.
pub fn check(state: &State) -> Result<u64, Failure> {
    let again = take_again(state)?;
    same(state.start == again.start, || "its start".to_string())?;
    same(state.names == again.names, || "its names".to_string())?;
    same(sorts(&state.trail).eq(sorts(&again.trail)), || {
        "its entities".to_string()
    })?;
    same(
        kept_events(&state.trail).eq(kept_events(&again.trail)),
        || "its kept events".to_string(),
    )?;
    compare_traces(state, &again)
}

fn take_again(state: &State) -> Result<State, Failure> {
    let thread = |error| Failure::io("cannot start a thread", error);
    let empty = State::empty(None).map_err(thread)?;
    let fresh = Trail::new().map_err(thread)?;
    let log = kept_log(state, Paths::of(Path::new("the kept log")));
    grow(&empty, &fresh, &log, log.digest()).map_err(|failure| {
        let message = format!(
            "damaged: a fresh trail does not take the kept log in: {}",
            failure.message
        );
        Failure::new(Exit::Damaged, message)
    })
}

/// Whether something is the same in the trail of the kept log.
fn same(is_same: bool, what: impl FnOnce() -> String) -> Result<(), Failure> {
    if is_same {
        return Ok(());
    }
    let message = format!(
        "damaged: the kept log, taken into a fresh trail, gives other answers: {} differ",
        what()
    );
    Err(Failure::new(Exit::Damaged, message))
}

fn sorts(trail: &Trail) -> impl Iterator<Item = Sort> + '_ {
    trail.entities().map(|(_, row)| row.sort)
}

/// Source, target, kind and time of each.
fn kept_events(trail: &Trail) -> impl Iterator<Item = (EntityNo, EntityNo, Kind, Time)> + '_ {
    let entities: Vec<EntityNo> = trail.versions().map(|(_, row)| row.entity).collect();
    trail.edges().map(move |(_, edge)| {
        let (source, target) = (entities[edge.from.0 as usize], entities[edge.to.0 as usize]);
        (source, target, edge.kind, edge.time)
    })
}

fn compare_traces(state: &State, again: &State) -> Result<u64, Failure> {
    let last = state.trail.counts().last;
    let mut intakes = vec![Vec::new(); state.trail.counts().entities as usize];
    for (_, target, _, time) in kept_events(&state.trail) {
        intakes[target.0 as usize].push(time);
    }
    let most = most_intakes(intakes.len());
    let bar = progress::bar(intakes.len(), "entities");
    let mut compared = 0;
    for (entity, intakes) in (0..).map(EntityNo).zip(&intakes) {
        let chosen = spread(intakes, most);
        let questions = questions(last, &chosen);
        // Each trail answers on a thread of its own.
        let (first, second) = thread::scope(|scope| {
            let second = scope.spawn(|| answers(&again.trail, entity, &questions));
            (answers(&state.trail, entity, &questions), second.join())
        });
        let second = second.expect("a trace of a sound trail");
        for ((question, first), second) in questions.iter().zip(first).zip(second) {
            same(first == second, || question.words(state, entity))?;
        }
        compared += questions.len() as u64;
        bar.inc(1);
    }
    bar.finish_and_clear();
    Ok(compared)
}

enum Question {
    Backward(Time),
    Forward(Time),
}

impl Question {
    fn words(&self, state: &State, entity: EntityNo) -> String {
        let (direction, time) = match self {
            Question::Backward(time) => ("backward", time),
            Question::Forward(time) => ("forward", time),
        };
        format!(
            "the {direction} traces of {} at {}",
            show::entity(state, entity),
            show::time(state, *time)
        )
    }
}

/// Backward at the last time, half of it and the intakes; forward at 0 and the intakes.
fn questions(last: Time, intakes: &[Time]) -> Vec<Question> {
    let backward = [last, Time(last.0 / 2)]
        .into_iter()
        .chain(intakes.iter().copied());
    let forward = [Time(0)].into_iter().chain(intakes.iter().copied());
    backward
        .map(Question::Backward)
        .chain(forward.map(Question::Forward))
        .collect()
}

/// The marked entities, their count and the intake.
type Answer = Result<(Vec<EntityNo>, u32, Time), Refusal>;

fn answers(trail: &Trail, entity: EntityNo, questions: &[Question]) -> Vec<Answer> {
    let marked = |trace: Trace, intake| (trace.entities().collect(), trace.count(), intake);
    let ask = |question: &Question| match question {
        Question::Backward(time) => trail
            .backward(entity, *time)
            .map(|trace| marked(trace, Time(0))),
        Question::Forward(time) => {
            let answer = trail.forward(&[entity], *time);
            answer.map(|answer| marked(answer.trace, answer.intake))
        }
    };
    questions.iter().map(ask).collect()
}

/// How many intakes of each entity are asked about, so that the traces are not too many: each intake makes two, and there are
/// three others.
fn most_intakes(entities: usize) -> usize {
    let traces = MOST_TRACES / entities.max(1);
    (traces.saturating_sub(3) / 2).clamp(1, MOST_INTAKES)
}

/// At most so many of the times, evenly spread over their list, the last among them.
fn spread(times: &[Time], most: usize) -> Vec<Time> {
    let few = times.len().min(most);
    let from_end = |index: usize| index * (times.len() - 1) / (few - 1).max(1);
    let mut chosen: Vec<Time> = (0..few)
        .rev()
        .map(|index| times[times.len() - 1 - from_end(index)])
        .collect();
    chosen.dedup();
    chosen
}

#[cfg(test)]
mod tests;
