//! One line of the table: a workload and the medians of its sides.

/// Which goal a line counts for.
#[derive(Clone, Copy, Debug, PartialEq, Eq)]
pub enum Goal {
    Batch,
    RepeatBatch,
    Trace,
    SoundnessTest,
    None,
}

/// Medians in seconds. They are printed only as ratios.
#[derive(Clone, Debug)]
pub struct Line {
    pub name: String,
    pub goal: Goal,
    pub library: f64,
    pub peer: Option<f64>,
    pub floor: f64,
    /// The floor with the tables read a row at a time, if it is a call that
    /// reads them and no file.
    pub row_floor: Option<f64>,
    /// The events taken in, if it is a batch.
    pub events: Option<u32>,
}

impl Line {
    /// Library to peer.
    pub fn to_peer(&self) -> Option<f64> {
        self.peer.map(|peer| self.library / peer)
    }

    /// Library to floor.
    pub fn to_floor(&self) -> f64 {
        self.library / self.floor
    }

    /// Library to the read a row at a time.
    pub fn to_row_floor(&self) -> Option<f64> {
        self.row_floor.map(|floor| self.library / floor)
    }

    pub fn events_a_second(&self) -> Option<f64> {
        self.events.map(|events| f64::from(events) / self.library)
    }

    pub fn seconds_an_event(&self) -> f64 {
        self.library / f64::from(self.events.unwrap_or(1))
    }
}
