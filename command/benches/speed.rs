//! The command on a full trail, as ratios measured in one run: `back` and `forward` to the library's call and a read of the state
//! file, in a process that runs already and in one of its own; ten events taken in to the write and sync of a state of that size, and
//! so the least program that takes them in. `make bench` runs it.

use std::ffi::{OsStr, OsString};
use std::fs::{self, File};
use std::io::{self, Read, Write};
use std::path::Path;
use std::process::{Command, Stdio};
use std::time::{Duration, Instant};
use trail::{
    Counts, DeclaredSort, EntityNo, EventFile, Kind, Record, Time, Trail, MOST_EDGES,
    MOST_ENTITIES, MOST_VERSIONS,
};

/// Runs of each side; one more before them does not count.
const RUNS: usize = 15;

fn main() {
    let words: Vec<OsString> = std::env::args_os().skip(1).collect();
    match &words[..] {
        [word, state] if word == "trace" => least_trace(Path::new(state)),
        [word, state, file] if word == "take" => least_take(Path::new(state), Path::new(file)),
        _ => measure(),
    }
}

fn measure() {
    let folder = tempfile::tempdir().expect("a folder can be made");
    let folder = folder.path();
    let full = full_file();
    fs::write(folder.join("full.slt"), &full).expect("the file can be written");
    run(folder, ["init"]);
    run(folder, ["take", "full.slt"]);
    let mut library = Trail::new().expect("a thread can be started");
    library.batch(&full).expect("the file fills the tables");
    let state = folder.join(".trail/state");
    println!(
        "a full trail: {} bytes of state",
        fs::metadata(&state).expect("a state").len()
    );
    traces(folder, &library, &state);
    ten_events(folder, &library, &state);
}

/// As many entities, versions and edges as there may be: the last entity is an object, which subject 0 reads; each subject forks the
/// next, round and round.
fn full_file() -> Vec<u8> {
    let subjects = MOST_ENTITIES - 1;
    let mut file = EventFile::new();
    for entity in 0..MOST_ENTITIES {
        let sort = if entity < subjects {
            DeclaredSort::Subject
        } else {
            DeclaredSort::Object
        };
        file.push(Record::Declaration {
            entity: entity as u16,
            sort,
        });
    }
    file.push(read_by_subject_0(Time(1)));
    for time in 1..MOST_EDGES {
        let step = time.min(MOST_VERSIONS - 2);
        let (source, target) = ((step - 1) % subjects, step % subjects);
        file.push(Record::Event {
            kind: Kind::Fork,
            source: source as u16,
            target: target as u16,
            time: Time(time),
        });
    }
    file.into_bytes()
}

fn read_by_subject_0(time: Time) -> Record {
    Record::Event {
        kind: Kind::Read,
        source: MOST_ENTITIES as u16 - 1,
        target: 0,
        time,
    }
}

fn traces(folder: &Path, library: &Trail, state: &Path) {
    let last = library.counts().last;
    let [backward, forward, read, back, on, least] = medians([
        &mut || timed(|| library.backward(EntityNo(0), last)),
        &mut || timed(|| library.forward(&[EntityNo(0)], Time(0))),
        &mut || timed(|| fs::read(state)),
        &mut || timed(|| run(folder, ["back", "#0"])),
        &mut || timed(|| run(folder, ["forward", "#0", "--at", "0"])),
        &mut || timed(|| run_least([OsStr::new("trace"), state.as_os_str()])),
    ]);
    println!(
        "back, to the library's call and a read of the state in a process that runs already: {:.1}",
        back / (backward + read)
    );
    println!("forward, likewise: {:.1}", on / (forward + read));
    println!(
        "back, to a program that only reads the state into tables and makes the call: {:.1}",
        back / least
    );
    println!("forward, likewise: {:.1}", on / least);
}

/// Where the counts stand in a state, and where its rows begin.
const COUNTS: usize = 24;
const ROWS: usize = COUNTS + 20;

/// The numbers that are read or written at a time.
const PIECE: usize = 1 << 14;

/// The least program for a backward trace: it reads the rows and makes the call.
fn least_trace(state: &Path) {
    let trail = read_trail(state);
    std::hint::black_box(trail.backward(EntityNo(0), trail.counts().last)).expect("entity 0");
}

/// The least program that takes a file in: it reads the rows, makes the call, writes the rows and syncs them.
fn least_take(state: &Path, file: &Path) {
    let mut trail = read_trail(state);
    let file = fs::read(file).expect("the file can be read");
    trail.batch(&file).expect("the file is taken in");
    let folder = state.parent().expect("a folder");
    put(folder, |new| {
        new.write_all(&[0; ROWS])?;
        let tables = [trail.entity_rows(), trail.version_rows(), trail.edge_rows()];
        for numbers in tables.into_iter().flat_map(|rows| rows.chunks(PIECE)) {
            let bytes = numbers.iter().flat_map(|number| number.to_le_bytes());
            new.write_all(&bytes.collect::<Vec<u8>>())?;
        }
        Ok(())
    });
}

fn read_trail(state: &Path) -> Trail {
    let mut file = File::open(state).expect("a state");
    let mut start = [0; ROWS];
    file.read_exact(&mut start).expect("counts");
    let (numbers, _) = start[COUNTS..].as_chunks();
    let [entities, versions, edges, accepted, last] =
        std::array::from_fn(|i| u32::from_le_bytes(numbers[i]));
    let counts = Counts {
        entities,
        versions,
        edges,
        accepted,
        last: Time(last),
    };
    let rows = [entities * 2, versions * 4, edges * 6]
        .map(|count| read_numbers(&mut file, count as usize));
    let [entities, versions, edges] = rows;
    Trail::from_rows(counts, entities, versions, edges).expect("sound rows")
}

fn read_numbers(file: &mut File, count: usize) -> Vec<u32> {
    let mut numbers = Vec::with_capacity(count);
    let mut piece = [0; 4 * PIECE];
    while numbers.len() < count {
        let length = piece.len().min(4 * (count - numbers.len()));
        file.read_exact(&mut piece[..length]).expect("rows");
        let (fours, _) = piece[..length].as_chunks();
        numbers.extend(fours.iter().map(|four| u32::from_le_bytes(*four)));
    }
    numbers
}

/// This program again, as the least one.
fn run_least<const WORDS: usize>(words: [&OsStr; WORDS]) {
    let program = std::env::current_exe().expect("this program");
    let status = Command::new(program).args(words).status();
    assert!(status.expect("the program runs").success());
}

/// Ten reads that repeat the first one, in a file that differs from the others by their time: full tables take repeats alone.
fn ten_reads(time: Time) -> Vec<u8> {
    let mut file = EventFile::new();
    for _ in 0..10 {
        file.push(read_by_subject_0(time));
    }
    file.into_bytes()
}

fn ten_events(folder: &Path, library: &Trail, state: &Path) {
    let bytes = fs::read(state).expect("a state");
    let file = folder.join("ten.slt");
    let mut time = library.counts().last;
    let take = &mut || {
        time = Time(time.0 + 1);
        fs::write(&file, ten_reads(time)).expect("the file can be written");
        timed(|| run(folder, ["take", "ten.slt"]))
    };
    let last = folder.join("last.slt");
    fs::write(&last, ten_reads(Time(u32::MAX))).expect("the file can be written");
    let words = [OsStr::new("take"), state.as_os_str(), last.as_os_str()];
    let least = &mut || timed(|| run_least(words));
    let sync = &mut || timed(|| put(folder, |new| new.write_all(&bytes)));
    let [take, least, sync] = medians([take, least, sync]);
    println!(
        "ten events taken in, to the write and sync of a state of that size: {:.1}; these are {:.0} % of it",
        take / sync,
        100.0 * sync / take
    );
    println!(
        "a program that only reads the state into tables, makes the call, writes and syncs, likewise: {:.1}; {:.0} %",
        least / sync,
        100.0 * sync / least
    );
}

/// What a commit asks of the disk: a new file, written, synced and put in its place.
fn put(folder: &Path, write: impl FnOnce(&mut File) -> io::Result<()>) {
    let new = folder.join("copy.new");
    let mut file = File::create(&new).expect("a file can be made");
    write(&mut file).expect("the file can be written");
    file.sync_all().expect("the file can be synced");
    fs::rename(&new, folder.join("copy")).expect("the file can be renamed");
    let synced = File::open(folder).and_then(|folder| folder.sync_all());
    synced.expect("the folder can be synced");
}

/// The medians of the sides in seconds. They run in turn, so that a slow moment of the machine meets all of them.
fn medians<const SIDES: usize>(sides: [&mut dyn FnMut() -> Duration; SIDES]) -> [f64; SIDES] {
    let mut times: [Vec<Duration>; SIDES] = std::array::from_fn(|_| Vec::new());
    for round in 0..=RUNS {
        for side in 0..SIDES {
            let time = sides[side]();
            if round > 0 {
                times[side].push(time);
            }
        }
    }
    times.map(|mut times| {
        times.sort_unstable();
        times[RUNS / 2].as_secs_f64()
    })
}

fn timed<A>(call: impl FnOnce() -> A) -> Duration {
    let start = Instant::now();
    std::hint::black_box(call());
    start.elapsed()
}

fn run<const WORDS: usize>(folder: &Path, words: [&str; WORDS]) {
    let status = Command::new(env!("CARGO_BIN_EXE_trail"))
        .args(words)
        .current_dir(folder)
        .env_remove("TRAIL_DIR")
        .stdout(Stdio::null())
        .status();
    assert!(status.expect("the command runs").success(), "{words:?}");
}
