//! Times of a recording moved to those of the trail.

use trail::{Record, Time, HEADER_LENGTH, RECORD_LENGTH};

/// How many hundredths lie from the trail's start to the recording's.
#[derive(Clone, Copy, Debug, PartialEq, Eq)]
pub struct Shift(pub i64);

/// The record, counted from 1, whose time would lie past the last that a trail can have.
#[derive(Clone, Copy, Debug, PartialEq, Eq)]
pub struct TooLate {
    pub record: u32,
    pub time: Time,
}

impl Shift {
    /// A time in the trail. It is 0, which is refused in every trail, for time 0 and for a time before the trail's first; none for
    /// a time past the last.
    pub fn moved(self, time: Time) -> Option<Time> {
        if time == Time(0) {
            return Some(time);
        }
        let moved = i64::from(time.0) + self.0;
        u32::try_from(moved.max(0)).ok().map(Time)
    }
}

/// An event file with its times moved, cut before the first record that is too late.
pub fn move_times(file: &[u8], shift: Shift) -> (Vec<u8>, Option<TooLate>) {
    let mut moved = file.to_vec();
    let records = moved.get_mut(HEADER_LENGTH..).unwrap_or_default();
    let mut too_late = None;
    for (number, bytes) in (1..).zip(records.chunks_exact_mut(RECORD_LENGTH)) {
        let bytes: &mut [u8; RECORD_LENGTH] = bytes.try_into().expect("the bytes of a record");
        let Some(Record::Event {
            kind,
            source,
            target,
            time,
        }) = Record::decode(*bytes)
        else {
            continue;
        };
        let Some(moved) = shift.moved(time) else {
            too_late = Some(TooLate {
                record: number,
                time,
            });
            break;
        };
        *bytes = Record::Event {
            kind,
            source,
            target,
            time: moved,
        }
        .encode();
    }
    if let Some(TooLate { record, .. }) = too_late {
        moved.truncate(HEADER_LENGTH + RECORD_LENGTH * (record as usize - 1));
    }
    (moved, too_late)
}

#[cfg(test)]
mod tests {
    use super::*;
    use trail::{DeclaredSort, EventFile, Kind};

    #[test]
    fn times_move_both_ways_and_stay_in_their_range() {
        assert_eq!(Shift(0).moved(Time(7)), Some(Time(7)));
        assert_eq!(Shift(100).moved(Time(7)), Some(Time(107)));
        assert_eq!(Shift(-6).moved(Time(7)), Some(Time(1)));
        assert_eq!(Shift(-7).moved(Time(7)), Some(Time(0)));
        assert_eq!(Shift(-800).moved(Time(7)), Some(Time(0)));
        assert_eq!(Shift(100).moved(Time(0)), Some(Time(0)));
        assert_eq!(Shift(1).moved(Time(u32::MAX - 1)), Some(Time(u32::MAX)));
        assert_eq!(Shift(1).moved(Time(u32::MAX)), None);
        assert_eq!(Shift(-(1 << 40)).moved(Time(u32::MAX)), Some(Time(0)));
    }

    #[test]
    fn only_the_times_of_events_move() {
        let file = |times: [u32; 2]| {
            let mut file = EventFile::new();
            file.declare(0, DeclaredSort::Object);
            file.declare(1, DeclaredSort::Subject);
            file.event(Kind::Read, 0, 1, Time(times[0]));
            file.event(Kind::Write, 1, 0, Time(times[1]));
            file.sign(0);
            let mut bytes = file.into_bytes();
            bytes.extend_from_slice(&[9; 12]);
            bytes.extend_from_slice(&[1, 2, 3]);
            bytes
        };
        assert_eq!(move_times(&file([3, 4]), Shift(10)), (file([13, 14]), None));
        assert_eq!(move_times(b"SLT", Shift(10)), (b"SLT".to_vec(), None));
        let too_late = TooLate {
            record: 4,
            time: Time(u32::MAX),
        };
        let (moved, found) = move_times(&file([3, u32::MAX]), Shift(10));
        assert_eq!(found, Some(too_late));
        assert_eq!(moved, file([13, 14])[..HEADER_LENGTH + 3 * RECORD_LENGTH]);
    }
}
