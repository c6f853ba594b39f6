//! The trail's answers against the model's.

use super::answers::Named;
use super::folder::Folder;
use super::model::Model;

/// Entities of the model with their names.
fn named(model: &Model, entities: impl IntoIterator<Item = usize>) -> Named {
    let name = |entity: usize| Some(model.entities[entity].name.clone());
    let row = |entity: usize| (entity as u32, name(entity).filter(|name| !name.is_empty()));
    entities.into_iter().map(row).collect()
}

impl Folder {
    /// The entities and their names are the model's.
    #[track_caller]
    pub fn expect_entities(&self, model: &Model) {
        assert_eq!(self.list(), named(model, 0..model.entities.len()));
    }

    /// What stands behind an entity at a time, asked about in these words, is what the model says.
    #[track_caller]
    pub fn expect_behind(&self, model: &Model, entity: usize, time: u32, at: &str) {
        let behind = named(model, model.backward(entity, time));
        assert_eq!(self.back(entity as u32, at), behind, "{entity} at {at}");
    }

    /// What some entities reached is what the model says.
    #[track_caller]
    pub fn expect_reached(&self, model: &Model, members: &[usize]) {
        let reached = named(model, model.forward(members));
        let numbers: Vec<u32> = members.iter().map(|member| *member as u32).collect();
        assert_eq!(self.forward(&numbers), reached, "from {members:?}");
    }
}
