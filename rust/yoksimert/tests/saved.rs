//! Records that a naive writer saves, and is killed while it does: what is loaded through `checked` is refused, or is a record that was
//! saved as a whole.

#[allow(dead_code, reason = "other tests draw more")]
#[path = "safe/random.rs"]
mod random;

use random::Random;
use std::fs::{self, File};
use std::io::Write;
use std::path::{Path, PathBuf};
use std::process::{Child, Command, Stdio};
use std::time::{Duration, Instant};
use std::{env, io, thread};
use yoksimert::{FixedWidthEncoding, Signal, SignalWriter, States, Unsound};

/// Where the saving process is to save.
const FOLDER: &str = "YOKSIMERT_SAVED_IN";
const KILLS: u32 = 40;
/// The records that are saved, one after another, have 1, 2, 3 and so on of these changes.
const LONGEST: usize = 300;

const ENCODING: FixedWidthEncoding = FixedWidthEncoding::BitVector {
    max_states: States::Nine,
    width: 9,
};

/// The record of so many changes. The first has the largest set, so that each record begins with the shorter ones.
fn record(changes: usize) -> Signal {
    let mut random = Random::new(61);
    let mut writer = SignalWriter::new(9).expect("the width stands");
    writer
        .add_change(0, "uuuuuuuuu")
        .expect("the change stands");
    let mut time_idx = 0;
    while writer.len() < changes {
        let string: Vec<u8> = (0..9).map(|_| random.pick(b"01xz-")).collect();
        writer
            .add_change(time_idx, &string)
            .expect("the change stands");
        time_idx += random.below(5);
    }
    writer.finish()
}

fn indices_in(folder: &Path) -> PathBuf {
    folder.join("indices")
}

fn bytes_in(folder: &Path) -> PathBuf {
    folder.join("bytes")
}

/// Naively: over the old files, in many small writes.
fn save(folder: &Path, signal: &Signal) -> io::Result<()> {
    let mut file = File::create(indices_in(folder))?;
    for index in signal.time_indices() {
        file.write_all(&index.to_le_bytes())?;
    }
    let mut file = File::create(bytes_in(folder))?;
    for byte in signal.bytes() {
        file.write_all(&[*byte])?;
    }
    Ok(())
}

/// As naively: what is there of an index that was cut is left out.
fn indices_of(stored: &[u8]) -> Vec<u32> {
    let whole = stored.chunks_exact(4);
    let indices = whole.map(|index| u32::from_le_bytes(index.try_into().expect("four bytes")));
    indices.collect()
}

fn load(folder: &Path) -> io::Result<Result<Signal, Unsound>> {
    let (indices, bytes) = (fs::read(indices_in(folder))?, fs::read(bytes_in(folder))?);
    Ok(Signal::checked(indices_of(&indices), ENCODING, bytes))
}

/// Whether what was found is sound; it is then a record that was saved.
fn is_whole(loaded: Result<Signal, Unsound>) -> bool {
    match loaded {
        Err(Unsound::Length { .. }) => false,
        Err(fault) => panic!("a cut that is not one of a length: {fault}"),
        Ok(signal) => {
            assert!(signal.same_record(&record(signal.len())), "{signal:?}");
            true
        }
    }
}

/// What the killed process does; it ends by itself only if nobody is left to kill it.
fn save_for_long(folder: &Path) {
    let (begin, longest) = (Instant::now(), record(LONGEST));
    for changes in 1..LONGEST {
        save(folder, &record(changes)).expect("the folder is there");
    }
    while begin.elapsed() < Duration::from_secs(60) {
        save(folder, &longest).expect("the folder is there");
    }
}

/// This program again, with this test alone, which then saves.
fn saving(folder: &Path) -> Child {
    let this = env::current_exe().expect("this program");
    let mut child = Command::new(this);
    child.args(["--exact", "a_killed_save_is_never_taken_for_a_record"]);
    child.env(FOLDER, folder).stdout(Stdio::null());
    child.spawn().expect("this program runs")
}

#[test]
fn a_killed_save_is_never_taken_for_a_record() {
    if let Some(folder) = env::var_os(FOLDER) {
        return save_for_long(Path::new(&folder));
    }
    let folder = Path::new(env!("CARGO_TARGET_TMPDIR")).join("saved");
    let mut random = Random::new(62);
    let mut torn = 0;
    for _ in 0..KILLS {
        fs::create_dir_all(&folder).expect("there is room");
        let mut child = saving(&folder);
        while !bytes_in(&folder).exists() {
            let ended = child.try_wait().expect("its state is known");
            assert_eq!(ended, None, "it saves until it is killed");
            thread::sleep(Duration::from_millis(1));
        }
        thread::sleep(Duration::from_micros(random.below(20_000).into()));
        child.kill().expect("it goes on");
        child.wait().expect("it was killed");
        let loaded = load(&folder).expect("both files are there");
        torn += u32::from(!is_whole(loaded));
        fs::remove_dir_all(&folder).expect("the folder is there");
    }
    // A save is never done for long.
    assert!(torn > 0, "no kill met a save");
}

/// Every state in which a save over an older record can be broken off.
#[test]
fn every_cut_is_refused() {
    let (old, new) = (record(20), record(33));
    let stored = |signal: &Signal| -> Vec<u8> {
        let indices = signal.time_indices().iter();
        indices.flat_map(|index| index.to_le_bytes()).collect()
    };
    let checked = |indices: &[u8], bytes: &[u8]| {
        let loaded = Signal::checked(indices_of(indices), ENCODING, bytes.to_vec());
        is_whole(loaded)
    };
    let (old_indices, new_indices) = (stored(&old), stored(&new));
    for cut in 0..=new_indices.len() {
        // The first 20 indices are those of the old record: with its bytes they are that record.
        let whole = checked(&new_indices[..cut], old.bytes());
        assert_eq!(whole, cut / 4 == 20, "{cut} bytes of the indices");
    }
    for cut in 0..=new.bytes().len() {
        let whole = checked(&new_indices, &new.bytes()[..cut]);
        assert_eq!(whole, cut == new.bytes().len(), "{cut} bytes");
    }
    assert!(checked(&old_indices, old.bytes()));
    assert!(!checked(&old_indices, new.bytes()));
}

/// Every list and every number of bytes that are too short or too long for each other, of every kind that has bytes.
#[test]
fn lengths_that_do_not_fit_are_refused() {
    let mut real = SignalWriter::new_real();
    let mut wire = SignalWriter::new(1).expect("the width stands");
    let mut bus = SignalWriter::new(8).expect("the width stands");
    for time_idx in 0..7 {
        real.add_change(time_idx, f64::from(time_idx))
            .expect("a change");
        wire.add_change(time_idx, ["0", "z"][time_idx as usize % 2])
            .expect("a change");
        bus.add_change(time_idx, &format!("{time_idx:08b}"))
            .expect("a change");
    }
    for signal in [real.finish(), wire.finish(), bus.finish()] {
        let (indices, encoding, bytes) = signal.into_parts();
        let size = bytes.len() / indices.len();
        for entries in 0..=indices.len() {
            for length in 0..=bytes.len() {
                let (indices, bytes) = (indices[..entries].to_vec(), bytes[..length].to_vec());
                let answer = Signal::checked(indices, encoding, bytes).map(|_| ());
                let cut = Unsound::Length {
                    entries,
                    expected: entries * size,
                    found: length,
                };
                let fits = length == entries * size;
                assert_eq!(answer, if fits { Ok(()) } else { Err(cut) });
            }
        }
    }
}

/// Events have no bytes that could tell how many there were, so a service stores their number.
#[test]
fn a_cut_list_of_events_is_a_shorter_one() {
    let cut = Signal::checked(vec![3, 5], FixedWidthEncoding::Event, vec![]);
    assert_eq!(cut.map(|signal| signal.len()), Ok(2));
    let long = Signal::checked(vec![3], FixedWidthEncoding::Event, vec![0]).err();
    let told = Unsound::Length {
        entries: 1,
        expected: 0,
        found: 1,
    };
    assert_eq!(long, Some(told));
}

/// Nor do lengths tell that the vectors are of one record: a service saves them under one sum, or in one file.
#[test]
fn two_records_of_one_length_may_be_mixed() {
    let wire = |changes: [(u32, &str); 2]| {
        let mut writer = SignalWriter::new(1).expect("the width stands");
        for (time_idx, level) in changes {
            writer.add_change(time_idx, level).expect("a change");
        }
        writer.finish()
    };
    let (old, new) = (wire([(0, "0"), (1, "1")]), wire([(5, "1"), (9, "0")]));
    let (indices, bytes) = (new.time_indices().to_vec(), old.bytes().to_vec());
    let mixed = Signal::checked(indices, old.encoding(), bytes).expect("the lengths fit");
    assert!(!mixed.same_record(&old) && !mixed.same_record(&new));
}
