//! `take --remove` ended by kill -9 at random moments: the trail is never damaged, and no recording is lost before the trail has it.

use crate::common::folder::Folder;
use crate::common::random::Random;
use crate::common::removal::{Left, Removal};
use crate::common::say;
use std::os::unix::process::ExitStatusExt;
use std::process::{Child, Stdio};
use std::thread::{sleep, yield_now};
use std::time::{Duration, Instant};

const KILLS: usize = 240;
/// On a slow machine there may be fewer.
const LONGEST: Duration = Duration::from_secs(90);

/// What a run is waited for before the random delay.
#[derive(Clone, Copy, Debug)]
enum Sight {
    Begun,
    NewStateBegun,
    NewStateInPlace,
    FirstFileGone,
}

#[derive(Default)]
struct Tally {
    kills: usize,
    old: usize,
    new: usize,
    whole: usize,
    some_gone: usize,
    ended_before: usize,
}

#[test]
fn killed_at_random_moments_it_loses_nothing() {
    let removal = Removal::new(1, 12_000);
    let duration = duration(&removal);
    let mut random = Random::new(2);
    let mut tally = Tally::default();
    let begun = Instant::now();
    while tally.kills < KILLS && begun.elapsed() < LONGEST {
        let sight = random.pick(&[
            Sight::Begun,
            Sight::Begun,
            Sight::NewStateBegun,
            Sight::NewStateInPlace,
            Sight::FirstFileGone,
        ]);
        let longest = match sight {
            Sight::Begun => duration,
            Sight::NewStateBegun => duration / 8,
            Sight::NewStateInPlace | Sight::FirstFileGone => duration / 100,
        };
        let delay = longest.mul_f64(random.below(1000) as f64 / 1000.0);
        one_run(&removal, sight, delay, &mut tally);
    }
    let Tally {
        kills,
        old,
        new,
        whole,
        some_gone,
        ended_before,
    } = tally;
    say(&format!(
        "kill -9 of take --remove over {duration:?}: {kills} kills; {old} left the old state, {new} the new one, \
         {whole} of these with every file still there, {some_gone} with some; {ended_before} runs were done before"
    ));
    assert!(old > 0 && new > 0);
}

fn one_run(removal: &Removal, sight: Sight, delay: Duration, tally: &mut Tally) {
    let folder = removal.lay();
    let mut child = removal
        .take(&folder)
        .stdout(Stdio::null())
        .stderr(Stdio::null())
        .spawn()
        .unwrap();
    wait_for(removal, &folder, sight, &mut child);
    sleep(delay);
    child.kill().unwrap();
    let killed = child.wait().unwrap().signal() == Some(9);
    let left = removal.check(&folder);
    removal.finish(&folder);
    if !killed {
        tally.ended_before += 1;
        assert_eq!(left, Left::DONE);
        return;
    }
    tally.kills += 1;
    match left {
        Left::OLD => tally.old += 1,
        Left { taken: 3, files } => {
            tally.new += 1;
            tally.whole += usize::from(files == 3);
            tally.some_gone += usize::from(files == 1 || files == 2);
        }
        _ => panic!("more than one commit: {left:?}"),
    }
}

/// Waits until the sight is seen or the run is over.
fn wait_for(removal: &Removal, folder: &Folder, sight: Sight, child: &mut Child) {
    let new_state = folder.trail().join("state.new");
    let first = &removal.paths(folder)[0];
    let state = folder.state_path();
    let old = std::fs::metadata(&state).unwrap().len();
    let is_seen = || match sight {
        Sight::Begun => true,
        Sight::NewStateBegun => new_state.exists(),
        Sight::NewStateInPlace => std::fs::metadata(&state).unwrap().len() != old,
        Sight::FirstFileGone => !first.exists(),
    };
    while !is_seen() && child.try_wait().unwrap().is_none() {
        yield_now();
    }
}

/// How long a whole run takes.
fn duration(removal: &Removal) -> Duration {
    let folder = removal.lay();
    let begun = Instant::now();
    assert!(removal.take(&folder).output().unwrap().status.success());
    begun.elapsed()
}
