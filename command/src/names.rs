//! The names of a trail's entities. Entities of one base are told apart by their generation: `BASE`, `BASE;2`, `BASE;3`, and so on.

use std::collections::HashMap;
use std::fmt;
use trail::EntityNo;

/// Unique, except for empty ones, which stand for no name.
#[derive(Clone, Debug, Default, PartialEq, Eq)]
pub struct Names {
    names: Vec<Vec<u8>>,
    /// The entities of each base, oldest first.
    generations: HashMap<Vec<u8>, Vec<EntityNo>>,
}

/// Why a text does not hold the names of a trail.
#[derive(Debug, PartialEq, Eq)]
pub enum NamesError {
    NotEnded,
    /// The name on this line, counted from 1, is not the next generation of its base.
    NotNext(usize),
}

impl Names {
    pub fn len(&self) -> usize {
        self.names.len()
    }

    pub fn name(&self, entity: EntityNo) -> &[u8] {
        &self.names[entity.0 as usize]
    }

    pub fn base_of(&self, entity: EntityNo) -> &[u8] {
        let name = self.name(entity);
        numbered_base(name).unwrap_or(name)
    }

    /// Those of a base, oldest first.
    pub fn generations(&self, base: &[u8]) -> &[EntityNo] {
        self.generations.get(base).map_or(&[], Vec::as_slice)
    }

    /// Names the next entity, as the next generation of a base; an empty one is no name.
    pub fn push_made(&mut self, base: &[u8]) -> EntityNo {
        debug_assert!(is_base(base));
        let entity = EntityNo(self.names.len() as u32);
        let mut name = base.to_vec();
        if !base.is_empty() {
            let generations = self.generations.entry(name.clone()).or_default();
            generations.push(entity);
            if generations.len() > 1 {
                name.extend_from_slice(format!(";{}", generations.len()).as_bytes());
            }
        }
        self.names.push(name);
        entity
    }

    /// A line for each entity, each ended by 0A.
    pub fn text(&self) -> Vec<u8> {
        let mut text = Vec::with_capacity(self.names.iter().map(|name| name.len() + 1).sum());
        for name in &self.names {
            text.extend_from_slice(name);
            text.push(b'\n');
        }
        text
    }

    pub fn from_text(text: &[u8]) -> Result<Names, NamesError> {
        let mut names = Names::default();
        for (index, line) in lines(text).ok_or(NamesError::NotEnded)?.iter().enumerate() {
            let base = numbered_base(line).unwrap_or(line);
            if !is_base(base) {
                return Err(NamesError::NotNext(index + 1));
            }
            let entity = names.push_made(base);
            if names.name(entity) != *line {
                return Err(NamesError::NotNext(index + 1));
            }
        }
        Ok(names)
    }
}

impl fmt::Display for NamesError {
    fn fmt(&self, f: &mut fmt::Formatter) -> fmt::Result {
        match self {
            NamesError::NotEnded => write!(f, "the last name is not ended"),
            NamesError::NotNext(line) => write!(f, "name {line} is not the next of its base"),
        }
    }
}

/// The lines of a text, each of which ends in 0A; none if the last one does not.
pub fn lines(text: &[u8]) -> Option<Vec<&[u8]>> {
    let Some(before_end) = text.strip_suffix(b"\n") else {
        return text.is_empty().then(Vec::new);
    };
    Some(before_end.split(|byte| *byte == b'\n').collect())
}

/// What stands before the `;K` at the end of a name: K is decimal, at least 1, without leading zeros, and the `;` is not escaped.
pub fn numbered_base(name: &[u8]) -> Option<&[u8]> {
    let semicolon = name.iter().rposition(|byte| *byte == b';')?;
    let (base, number) = (&name[..semicolon], &name[semicolon + 1..]);
    let decimal = number.iter().all(u8::is_ascii_digit) && *number.first()? != b'0';
    (decimal && !escapes_next(base)).then_some(base)
}

/// Whether it ends in a backslash that escapes what follows: in an odd number of them.
pub fn escapes_next(text: &[u8]) -> bool {
    let backslashes = text.iter().rev().take_while(|byte| **byte == b'\\');
    backslashes.count() % 2 == 1
}

/// Whether generations of it can be told from it, and it is not itself read as one.
fn is_base(base: &[u8]) -> bool {
    numbered_base(base).is_none() && !escapes_next(base)
}

#[cfg(test)]
mod tests;
