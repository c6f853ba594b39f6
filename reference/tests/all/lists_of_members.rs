//! Forward traces of lists of members.

use crate::common::{forward, grown, worked_list, worked_tables};
use reference::generate::{
    any_members, any_time, declared_members, grown_tables, sound_tables, unsound_tables,
};
use reference::peer::Trail;
use reference::sound::Clause;
use reference::{FileBuilder, Forward, ForwardAnswer, Random, Tables};

const REFUSED_5: ForwardAnswer = refused(5);
const REFUSED_14: ForwardAnswer = refused(14);
const REFUSED_16: ForwardAnswer = refused(16);

const fn refused(refusal: u32) -> ForwardAnswer {
    ForwardAnswer {
        refusal,
        count: 0,
        intake: 0,
    }
}

fn marking(work: &[u8], marks: &[u8], intake: u32) -> Forward {
    let count = marks.iter().map(|mark| u32::from(*mark)).sum();
    Forward {
        answer: ForwardAnswer {
            refusal: 0,
            count,
            intake,
        },
        work: work.to_vec(),
        marks: marks.to_vec(),
    }
}

/// A forward trace of the worked trail, over tables and over the full list.
fn assert_worked(members: &[u32], time: u32, work: [u8; 5], marks: [u8; 4], intake: u32) {
    let expected = marking(&work, &marks, intake);
    assert_eq!(forward(&worked_tables(), members, time), expected);
    let mut of_list = [7; 4];
    let answer = worked_list().forward(members, time, 5, &mut of_list);
    assert_eq!((answer, of_list), (expected.answer, marks));
}

#[test]
fn two_members_of_the_worked_trail() {
    assert_worked(&[0, 3], 4, [1, 1, 1, 1, 1], [1, 1, 1, 1], 0);
    assert_worked(&[1, 2], 4, [0, 1, 1, 0, 1], [0, 1, 1, 0], 1);
    assert_worked(&[1, 2], 5, [0, 0, 1, 0, 1], [0, 1, 1, 0], 2);
    assert_worked(&[1, 2], 6, [0, 0, 1, 0, 1], [0, 1, 1, 0], 5);
    assert_worked(&[1, 3], 5, [0, 0, 1, 1, 1], [0, 1, 1, 1], 0);
    assert_worked(&[2, 3], 7, [0, 0, 1, 1, 1], [0, 1, 1, 1], 0);
}

#[test]
fn repeats_and_order_change_nothing_on_the_worked_trail() {
    for members in [&[2, 1][..], &[1, 1, 2], &[2, 1, 2, 2, 1, 1, 2]] {
        assert_worked(members, 6, [0, 0, 1, 0, 1], [0, 1, 1, 0], 5);
    }
    assert_worked(&[1, 1], 5, [0, 0, 1, 0, 1], [0, 1, 1, 0], 5);
}

#[test]
fn an_empty_list_marks_nothing() {
    for time in [0, 4, 7, u32::MAX] {
        assert_worked(&[], time, [0; 5], [0; 4], 0);
    }
    let fresh = Tables::of_rows(&[], &[], &[], 0, 0);
    assert_eq!(forward(&fresh, &[], 0), marking(&[], &[], 0));
    assert_eq!(forward(&fresh, &[0], 0).answer, REFUSED_5);
}

/// From the earliest intake, which is 0, member 0 would mark 1 too.
#[test]
fn each_member_starts_from_its_own_intake() {
    let file = FileBuilder::new().object(0).subject(1).object(2);
    let tables = grown(&file.read(0, 1, 1).write(1, 0, 2).bytes());
    let expected = marking(&[0, 0, 1, 1], &[1, 0, 1], 0);
    assert_eq!(forward(&tables, &[0, 2], 2), expected);
    assert_eq!(forward(&tables, &[0], 2).answer.intake, 2);
    assert_eq!(forward(&tables, &[0, 2], 0).marks, [1; 3]);
}

#[test]
fn from_the_earliest_intake_more_would_be_marked() {
    let mut random = Random::new(93);
    let mut more = 0;
    for _ in 0..400 {
        let tables = grown_tables(&mut random, 40);
        let time = any_time(&mut random, tables.counts.last);
        let members = declared_members(&mut random, tables.counts.entities, 3);
        let own = forward(&tables, &members, time);
        let earliest = forward(&tables, &members, own.answer.intake);
        let mut marks = own.marks.iter().zip(&earliest.marks);
        assert!(marks.all(|(own, earliest)| own <= earliest));
        more += u32::from(own.answer.count < earliest.answer.count);
    }
    assert!(more > 50, "{more}");
}

/// The list over tables, the peer's, and what its members give alone.
fn assert_is_union(random: &mut Random, tables: &Tables) -> Forward {
    let members = any_members(random, tables.counts.entities);
    let time = any_time(random, tables.counts.last);
    let together = forward(tables, &members, time);
    let mut of_peer = together.clone();
    let (work, marks) = (&mut of_peer.work, &mut of_peer.marks);
    of_peer.answer = Trail::of_tables(tables).forward(&members, time, work, marks);
    assert_eq!(of_peer, together);
    if together.answer.refusal == 0 {
        let alone = |member: &u32| forward(tables, &[*member], time);
        let alone: Vec<Forward> = members.iter().map(alone).collect();
        assert_eq!(Forward::union(tables.counts, &alone), together);
    }
    together
}

#[test]
fn members_mark_together_what_they_mark_alone() {
    let mut random = Random::new(90);
    let mut with_intake = 0;
    for _ in 0..1_000 {
        for tables in [grown_tables(&mut random, 40), sound_tables(&mut random)] {
            let together = assert_is_union(&mut random, &tables);
            with_intake += u32::from(together.answer.intake > 0);
        }
    }
    assert!(with_intake > 200, "{with_intake}");
}

#[test]
fn order_and_repeats_do_not_matter() {
    let mut random = Random::new(91);
    for _ in 0..300 {
        let tables = grown_tables(&mut random, 40);
        let time = any_time(&mut random, tables.counts.last);
        let mut members = declared_members(&mut random, tables.counts.entities, 4);
        let once = forward(&tables, &members, time);
        members.extend_from_within(1..);
        random.shuffle(&mut members);
        assert_eq!(forward(&tables, &members, time), once);
    }
}

#[test]
fn one_undeclared_member_in_each_place() {
    let tables = worked_tables();
    for undeclared in [4, 65_536, u32::MAX] {
        for place in 0..5 {
            let mut members = [3, 2, 1, 0, 3];
            members[place] = undeclared;
            let expected = Forward {
                answer: REFUSED_5,
                work: vec![7; 5],
                marks: vec![7; 4],
            };
            assert_eq!(forward(&tables, &members, 7), expected);
        }
    }
}

#[test]
fn refusals_of_lists_in_their_order() {
    let mut random = Random::new(92);
    for clause in Clause::ALL {
        let tables = unsound_tables(&mut random, clause);
        for members in [&[][..], &[0], &[0, u32::MAX, 0]] {
            let answer = tables.forward(members, 0, &mut [], &mut []);
            assert_eq!(answer, REFUSED_16);
        }
    }
    let tables = worked_tables();
    for (members, answer) in [
        (&[][..], REFUSED_14),
        (&[1, 2], REFUSED_14),
        (&[1, 2, 4], REFUSED_5),
        (&[4, 1, 2], REFUSED_5),
    ] {
        assert_eq!(tables.forward(members, 0, &mut [], &mut []), answer);
    }
}

#[test]
fn buffers_of_the_empty_list() {
    let tables = worked_tables();
    for (work, marks) in [(4, 4), (5, 3), (4, 3), (0, 0), (9, 3), (4, 9)] {
        let (mut work, mut marks) = (vec![7; work], vec![7; marks]);
        let answer = tables.forward(&[], 7, &mut work, &mut marks);
        assert_eq!(answer, REFUSED_14);
        assert!(work.iter().chain(&marks).all(|byte| *byte == 7));
    }
    let (mut work, mut marks) = ([7; 6], [7; 6]);
    let answer = tables.forward(&[], 7, &mut work, &mut marks);
    assert_eq!(answer, refused(0));
    assert_eq!((work, marks), ([0, 0, 0, 0, 0, 7], [0, 0, 0, 0, 7, 7]));
}

#[test]
fn a_list_of_a_million_repeats() {
    let tables = worked_tables();
    let mut members = vec![1; 1_000_000];
    assert_eq!(forward(&tables, &members, 4), forward(&tables, &[1], 4));
    members[999_999] = 3;
    assert_eq!(forward(&tables, &members, 4), forward(&tables, &[3, 1], 4));
    members[500_000] = 4;
    assert_eq!(forward(&tables, &members, 4).answer, REFUSED_5);
}
