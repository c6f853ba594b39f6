//! Signed objects through the crate.

use crate::common::worked_trail;
use trail::{EntityNo, EventFile, Kind, Refusal, Sort, Taken, Time, Trail};

fn signature(entity: u16) -> Vec<u8> {
    let mut file = EventFile::new();
    file.sign(entity);
    file.into_bytes()
}

#[test]
fn a_signed_report_takes_no_write() {
    let mut trail = worked_trail();
    let before = trail.counts();
    assert_eq!(
        trail.batch(&signature(2)),
        Ok(Taken {
            records: 1,
            tried: 0
        })
    );
    assert_eq!(trail.entity(EntityNo(2)).unwrap().sort, Sort::SignedObject);
    assert_eq!(trail.counts(), before);
    let mut write = EventFile::new();
    write.event(Kind::Write, 1, 2, Time(8));
    assert_eq!(
        trail.batch(write.as_bytes()).unwrap_err().refusal,
        Refusal::Signed
    );
    assert_eq!(
        trail.batch(&signature(2)).unwrap_err().refusal,
        Refusal::Signed
    );
}

#[test]
fn the_log_has_the_signatures() {
    let mut trail = worked_trail();
    assert_eq!(trail.kept_log()[3], 1);
    for (signed, length) in [(2, 116), (0, 128)] {
        trail.batch(&signature(signed)).unwrap();
        let log = trail.kept_log();
        assert_eq!((log.len(), log[3]), (length, 2));
        let mut again = Trail::new().unwrap();
        again.batch(&log).unwrap();
        assert_eq!(again.entity_rows(), trail.entity_rows());
    }
}
