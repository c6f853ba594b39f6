//! Which entities of an answer are shown.

use crate::cli::Choice;
use crate::pattern::Pattern;
use crate::state::State;
use crate::{entities, show};
use trail::EntityNo;

pub struct Chosen {
    pattern: Option<Pattern>,
    /// Whether only programs are shown, or only others.
    programs: Option<bool>,
}

impl Chosen {
    pub fn new(choice: &Choice) -> Chosen {
        Chosen {
            pattern: choice.only.as_deref().map(Pattern::new),
            programs: (choice.programs || choice.files).then_some(choice.programs),
        }
    }

    pub fn shows(&self, state: &State, entity: EntityNo) -> bool {
        let is_program = show::is_program(state, entity);
        self.programs.is_none_or(|programs| programs == is_program)
            && self
                .pattern
                .as_ref()
                .is_none_or(|pattern| fits(pattern, state, entity))
    }
}

/// Whether its name fits, or that without generation, or that of a program without `[PID]`; of an entity without a name, `#N`.
fn fits(pattern: &Pattern, state: &State, entity: EntityNo) -> bool {
    match state.names.name(entity) {
        b"" => pattern.fits(format!("#{entity}").as_bytes()),
        name => {
            pattern.fits(name)
                || pattern.fits(state.names.base_of(entity))
                || pattern.fits(entities::path(state, entity))
        }
    }
}
