//! Document 01's laws over generated runs, records and derivations.

use std::collections::{BTreeMap, BTreeSet};

use oracle::{
    Change, Derivation, Encoding, Fed, Offset, Refusal, Side, States, Step, add_piece, compare,
    derived_laid_out, derived_list, empty_derivation, fresh, history, history_laid_out, look_up,
};

use crate::support::{Recorder, bit_vector, derive_into, entry_size, shared};

const CASES: u64 = 400;
const SETS: [States; 3] = [States::Two, States::Four, States::Nine];
const WIDTHS: [u32; 16] = [1, 1, 1, 2, 2, 3, 3, 4, 5, 6, 7, 8, 9, 16, 17, 33];

/// Xorshift numbers; the seed is printed when a test fails.
struct Random {
    seed: u64,
    state: u64,
}

impl Random {
    fn new(seed: u64) -> Random {
        let mut random = Random {
            seed,
            state: seed.wrapping_mul(0x9E37_79B9_7F4A_7C15) | 1,
        };
        for _ in 0..8 {
            random.next();
        }
        random
    }

    fn next(&mut self) -> u64 {
        self.state ^= self.state << 13;
        self.state ^= self.state >> 7;
        self.state ^= self.state << 17;
        self.state >> 11
    }

    fn below(&mut self, bound: usize) -> usize {
        (self.next() % bound as u64) as usize
    }

    fn pick<T: Copy>(&mut self, list: &[T]) -> T {
        list[self.below(list.len())]
    }

    fn one_in(&mut self, bound: usize) -> bool {
        self.below(bound) == 0
    }

    fn bytes(&mut self, length: usize) -> Vec<u8> {
        (0..length).map(|_| self.next() as u8).collect()
    }

    /// A string of the width over few letters, so that repeats happen.
    fn string(&mut self, width: u32) -> Vec<u8> {
        let letters: &[u8] = self.pick(&[&b"01"[..], b"01", b"0x", b"01xzXZ", b"01xzhuwl-HUWL"]);
        (0..width).map(|_| self.pick(letters)).collect()
    }

    /// A change for the width, seldom one that no record takes.
    fn change(&mut self, width: u32) -> Change {
        let mut string = self.string(width);
        match self.below(30) {
            0 => return Change::Real(self.next()),
            1 => string.push(b'0'),
            2 => drop(string.pop()),
            3 => string[0] = self.pick(b"?b 2\0\xFF"),
            _ => (),
        }
        Change::Text(string)
    }
}

impl Drop for Random {
    fn drop(&mut self) {
        if std::thread::panicking() {
            eprintln!("seed {}", self.seed);
        }
    }
}

/// A run so far, and all that it was fed.
struct Run {
    width: u32,
    recorder: Recorder,
    fed: Vec<Fed>,
}

impl Run {
    fn new(width: u32) -> Run {
        Run {
            width,
            recorder: Recorder::empty(fresh(width).unwrap(), 0, 0),
            fed: Vec::new(),
        }
    }

    /// Lends other slices, that hold the used part and are otherwise free.
    fn relocate(&mut self, random: &mut Random, bytes: usize, entries: usize) {
        let old = self.recorder.clone();
        let byte_start = random.below(5);
        let index_start = random.below(5);
        let filler = random.bytes(index_start + entries);
        let (spare_before, spare_behind) = filler.split_at(index_start);
        let as_indices = |bytes: &[u8]| bytes.iter().map(|&b| u32::from(b)).collect::<Vec<_>>();
        let parts = [
            random.bytes(byte_start),
            old.used_bytes().to_vec(),
            random.bytes(bytes),
        ];
        self.recorder = Recorder {
            description: old.description,
            bytes: parts.concat(),
            byte_start,
            indices: [
                &as_indices(spare_before),
                old.used_indices(),
                &as_indices(spare_behind),
            ]
            .concat(),
            index_start,
        };
    }

    fn feed(&mut self, index: u32, change: Change) -> Result<(), Refusal> {
        let answer = self.recorder.add(index, &change);
        let accepted = answer.is_ok();
        self.fed.push(Fed {
            index,
            change,
            accepted,
        });
        answer
    }

    fn assert_is_its_history(&self) {
        let pairs = history(&self.fed);
        let laid_out = history_laid_out(self.width, &pairs);
        let record = &self.recorder;
        let held = (
            record.description,
            record.used_bytes().to_vec(),
            record.used_indices().to_vec(),
        );
        assert_eq!(held, laid_out);
        for (entry, (_, string)) in (0..).zip(&pairs) {
            let text = record.text(entry).unwrap();
            assert_eq!(text.as_bytes(), string);
            assert_eq!(record.read(entry).unwrap().states, least_set(string));
        }
    }
}

/// The smallest set whose letters hold a string of small letters.
fn least_set(string: &[u8]) -> States {
    let holds = |letters: &[u8]| string.iter().all(|character| letters.contains(character));
    match (holds(b"01"), holds(b"01xz")) {
        (true, _) => States::Two,
        (false, true) => States::Four,
        (false, false) => States::Nine,
    }
}

/// The answer to a change, worked out from the history and the lengths of the slices behind
/// the starts.
fn expected(run: &Run, index: u32, change: &Change) -> Result<(), Refusal> {
    let Change::Text(string) = change else {
        return Err(Refusal(3));
    };
    if string.len() != run.width as usize {
        return Err(Refusal(4));
    }
    let small = string.to_ascii_lowercase();
    if !small
        .iter()
        .all(|character| b"01xzhuwl-".contains(character))
    {
        return Err(Refusal(5));
    }
    let mut pairs = history(&run.fed);
    if pairs.last().is_some_and(|(last, _)| index < *last) {
        return Err(Refusal(6));
    }
    if pairs.last().is_none_or(|(_, last)| *last != small) {
        pairs.push((index, small));
    }
    let largest = pairs.iter().map(|(_, string)| least_set(string)).max();
    let size = entry_size(bit_vector(run.width, largest.unwrap(), 0).encoding);
    let room = run.recorder.bytes.len() - run.recorder.byte_start;
    let entries = run.recorder.indices.len() - run.recorder.index_start;
    if pairs.len() * size > room || pairs.len() > entries {
        return Err(Refusal(7));
    }
    Ok(())
}

#[test]
fn after_every_run_the_record_is_its_history_laid_out() {
    let mut seen = BTreeSet::new();
    for seed in 1..=CASES {
        let mut random = Random::new(seed);
        let width = if seed % 100 == 0 {
            4_096
        } else {
            random.pick(&WIDTHS)
        };
        let mut run = Run::new(width);
        let mut index = 0;
        for _ in 0..random.below(30) {
            index += random.pick(&[0, 0, 1, 2, 1_000]);
            let offered = if random.one_in(12) { index / 2 } else { index };
            let spare = random.pick(&[0, 1, 20, 3_000, 100_000]);
            let entries = random.pick(&[0, 1, 4]);
            run.relocate(&mut random, spare, entries);
            let change = random.change(width);
            let answer = expected(&run, offered, &change);
            assert_eq!(run.feed(offered, change), answer);
            run.assert_is_its_history();
            seen.insert(answer);
        }
    }
    let refused = (3..=7).map(|number| Err(Refusal(number)));
    assert_eq!(seen, refused.chain([Ok(())]).collect());
}

/// A short run over few strings, so that two of them often agree.
fn short_run(random: &mut Random, width: u32) -> Run {
    let mut run = Run::new(width);
    for index in 0..1 + random.below(3) as u32 {
        run.relocate(random, 100, 4);
        let characters = (0..width).map(|_| random.pick(b"01xXh")).collect();
        assert_eq!(run.feed(index, Change::Text(characters)), Ok(()));
    }
    run
}

#[test]
fn equal_records_and_equal_histories_go_together() {
    let mut outcomes = BTreeMap::from([(true, 0), (false, 0)]);
    for seed in 1..=10 * CASES {
        let mut random = Random::new(seed);
        let width = random.pick(&[1, 1, 2, 3]);
        let (a, b) = (short_run(&mut random, width), short_run(&mut random, width));
        let equal = (
            a.recorder.used_indices(),
            a.recorder.used_bytes(),
            a.recorder.max_states(),
        ) == (
            b.recorder.used_indices(),
            b.recorder.used_bytes(),
            b.recorder.max_states(),
        );
        assert_eq!(equal, history(&a.fed) == history(&b.fed));
        assert_eq!(
            compare(&a.recorder.record(), &b.recorder.record()),
            Ok(equal)
        );
        *outcomes.entry(equal).or_default() += 1;
    }
    assert!(outcomes.values().all(|&count| count > 50), "{outcomes:?}");
}

/// A record of any bytes, mostly with marks that stand, whose indices seldom fall.
fn any_record(random: &mut Random, width: u32) -> Recorder {
    let max_states = random.pick(&SETS);
    let count = random.pick(&[0, 1, 2, 3, 4, 5, 6, 6, 7]);
    let description = bit_vector(width, max_states, count as u32);
    let size = entry_size(description.encoding);
    let mut bytes = random.bytes(count * size);
    for entry in bytes.chunks_mut(size) {
        tame(random, max_states, entry);
    }
    let mut indices: Vec<u32> = (0..count).map(|_| random.below(6) as u32).collect();
    if !random.one_in(20) {
        indices.sort_unstable();
    }
    if let Some(first) = indices.first_mut().filter(|_| !random.one_in(20)) {
        *first = 0;
    }
    Recorder::with(description, &bytes, &indices)
}

/// Gives an entry a mark that stands and codes below 8, except seldom.
fn tame(random: &mut Random, max_states: States, entry: &mut [u8]) {
    if !random.one_in(30) {
        entry.iter_mut().for_each(|byte| *byte &= 0x77);
    }
    if max_states != States::Two && !random.one_in(30) {
        let mark = random.below(usize::from(max_states.mark()) + 1) as u8;
        entry[0] = entry[0] & 0x3F | mark << 6;
    }
}

/// Own set and text of every entry, or the first refusal.
fn contents(record: &Recorder) -> Result<Vec<(States, String)>, Refusal> {
    let entry = |k| Ok((record.read(k)?.states, record.text(k)?));
    (0..record.description.count).map(entry).collect()
}

#[test]
fn widening_keeps_the_levels_of_any_bytes() {
    let mut raised = 0;
    for seed in 1..=CASES {
        let mut random = Random::new(seed);
        let width = random.pick(&WIDTHS);
        let mut record = any_record(&mut random, width).with_room(500, 1);
        let (before, before_set) = (contents(&record), record.max_states());
        let string = random.string(width);
        let answer = record.add(u32::MAX, &Change::Text(string));
        assert_eq!(answer, Ok(()));
        let strays_become_marks = before_set == States::Two && width <= 3;
        if record.max_states() == before_set || strays_become_marks {
            continue;
        }
        if let Ok(before) = before {
            raised += 1;
            assert_eq!(contents(&record).unwrap()[..before.len()], before);
        }
    }
    assert!(raised > 20, "{raised}");
}

#[test]
fn refused_changes_leave_slices_of_any_record() {
    let mut seen = BTreeSet::new();
    for seed in 1..=10 * CASES {
        let mut random = Random::new(seed);
        let width = random.pick(&WIDTHS);
        let mut record = any_record(&mut random, width);
        let (bytes, entries) = (random.below(4), random.below(2));
        record = record.with_room(bytes, entries);
        if random.one_in(10) {
            record.description.encoding = random.pick(&[Encoding::Event, Encoding::Real]);
        }
        record.byte_start += random.pick(&[0, 0, 0, 1]);
        let index = random.below(9) as u32;
        let change = random.change(width);
        // The recorder asserts that a refusal left both slices.
        seen.insert(record.add(index, &change).err());
    }
    let refused = (2..=7).map(|number| Some(Refusal(number)));
    assert_eq!(seen, refused.chain([None]).collect());
}

/// A derivation over so many inputs of these widths, by additions that mostly stand.
fn any_derivation(random: &mut Random, widths: &[u32]) -> Derivation {
    let mut d = empty_derivation();
    for name in 0..widths.len() as u32 {
        d.inputs[name as usize] = name;
        d.input_count += 1;
    }
    for _ in 0..1 + random.below(4) {
        let name = random.below(widths.len());
        let above = widths[name] as usize + usize::from(random.one_in(40));
        let lsb = random.below(above) as u32;
        let msb = lsb + random.below(above - lsb as usize) as u32;
        let side = random.pick(&[Side::Left, Side::Right]);
        d = add_piece(&d, side, name as u32, msb, lsb).unwrap();
    }
    d
}

/// The derived list by keys: an entry's key is its index and how many entries of that index came
/// before it; a step is at each key of any input, and shows each input's last entry not above it.
fn list_by_keys(d: &Derivation, records: &[&Recorder]) -> Vec<Step> {
    let keys: Vec<Vec<(u32, usize)>> = records.iter().map(|record| keys_of(record)).collect();
    let steps: BTreeSet<(u32, usize)> = keys.iter().flatten().copied().collect();
    let shown: Vec<Vec<(States, String)>> = records.iter().map(|r| contents(r).unwrap()).collect();
    let mut list: Vec<Step> = Vec::new();
    for key in steps {
        let last = |input: usize| keys[input].iter().filter(|&&k| k <= key).count() - 1;
        let current: Vec<_> = (0..records.len())
            .map(|input| &shown[input][last(input)])
            .collect();
        let string = picked(d, &current);
        let states = current.iter().map(|(states, _)| *states).max().unwrap();
        let step = Step {
            index: key.0,
            string,
            states,
        };
        list.push(step);
    }
    list.dedup_by(|step, before| step.string == before.string && step.states == before.states);
    list
}

fn keys_of(record: &Recorder) -> Vec<(u32, usize)> {
    let indices = record.used_indices();
    let earlier = |k: usize| {
        indices[..k]
            .iter()
            .filter(|&&index| index == indices[k])
            .count()
    };
    (0..indices.len())
        .map(|k| (indices[k], earlier(k)))
        .collect()
}

/// The characters of the pieces, by their places in the inputs' texts.
fn picked(d: &Derivation, current: &[&(States, String)]) -> Vec<u8> {
    let mut string = Vec::new();
    for piece in &d.pieces[..d.piece_count as usize] {
        let text = current[(piece >> 48) as usize].1.as_bytes();
        let low_end = text.len() - (*piece as u32) as usize;
        let width = (piece >> 32) as u16;
        string.extend(&text[low_end - usize::from(width)..low_end]);
    }
    string
}

#[test]
fn an_accepted_derive_leaves_its_derived_list_laid_out() {
    let mut seen = BTreeMap::new();
    for seed in 1..=10 * CASES {
        let mut random = Random::new(seed);
        let widths: Vec<u32> = (0..1 + random.below(3))
            .map(|_| random.pick(&WIDTHS))
            .collect();
        let mut records: Vec<Recorder> = widths
            .iter()
            .map(|&width| any_record(&mut random, width))
            .collect();
        if random.one_in(20) {
            records[0].byte_start += 1_000;
        }
        let records: Vec<&Recorder> = records.iter().collect();
        let d = any_derivation(&mut random, &widths);
        let room = random.pick(&[2, 4_000]);
        let answer = derive_into(&d, &records, room, room);
        *seen.entry(answer.as_ref().err().copied()).or_insert(0) += 1;
        if let Ok(derived) = answer {
            assert_is_derived_list(&d, &records, &derived);
        }
    }
    let refused = [2, 7, 9, 10, 11, 14, 15].map(|number| Some(Refusal(number)));
    let numbers: BTreeSet<_> = refused.into_iter().chain([None]).collect();
    assert_eq!(
        seen.keys().copied().collect::<BTreeSet<_>>(),
        numbers,
        "{seen:?}"
    );
    assert!(seen[&None] > 200, "{seen:?}");
}

fn assert_is_derived_list(d: &Derivation, records: &[&Recorder], derived: &Recorder) {
    let (inputs, bytes, indices) = shared(records);
    let list = derived_list(d, &inputs, &bytes, &indices);
    let largest = records
        .iter()
        .map(|record| record.max_states())
        .max()
        .unwrap();
    let laid_out = derived_laid_out(d.width, largest, &list);
    assert_eq!(derived.description, laid_out.0);
    assert_eq!(derived.used_bytes(), laid_out.1);
    assert_eq!(derived.used_indices(), laid_out.2);
    let read_back = contents(derived).unwrap();
    let listed = list
        .iter()
        .map(|step| (step.states, String::from_utf8(step.string.clone())));
    assert!(
        listed.eq(read_back
            .into_iter()
            .map(|(states, text)| (states, Ok(text))))
    );
    if records.iter().all(|record| contents(record).is_ok()) {
        assert_eq!(list, list_by_keys(d, records));
    }
}

#[test]
fn compare_agrees_with_the_texts() {
    let mut outcomes = BTreeMap::from([(true, 0), (false, 0)]);
    for seed in 1..=10 * CASES {
        let mut random = Random::new(seed);
        let width = random.pick(&[1, 1, 2]);
        let (a, b) = (
            any_record(&mut random, width),
            any_record(&mut random, width),
        );
        let (Ok(first), Ok(second)) = (contents(&a), contents(&b)) else {
            continue;
        };
        let texts = |list: Vec<(States, String)>| list.into_iter().map(|(_, text)| text);
        let equal = a.used_indices() == b.used_indices() && texts(first).eq(texts(second));
        assert_eq!(compare(&a.record(), &b.record()), Ok(equal));
        assert_eq!(compare(&a.record(), &a.record()), Ok(true));
        *outcomes.entry(equal).or_default() += 1;
    }
    assert!(outcomes.values().all(|&count| count > 50), "{outcomes:?}");
}

#[test]
fn look_up_agrees_with_a_walk_from_the_front() {
    for seed in 1..=CASES {
        let mut random = Random::new(seed);
        let mut indices: Vec<u32> = (0..random.below(9))
            .map(|_| random.below(7) as u32)
            .collect();
        indices.sort_unstable();
        for sought in 0..8 {
            assert_eq!(look_up(&indices, sought), Ok(walk(&indices, sought)));
        }
    }
}

fn walk(indices: &[u32], sought: u32) -> Option<Offset> {
    let mut answer: Option<Offset> = None;
    for (k, &index) in indices.iter().enumerate() {
        if index > sought {
            answer.as_mut()?.next_index = Some(index);
            break;
        }
        match &mut answer {
            Some(offset) if indices[offset.start] == index => offset.elements += 1,
            _ => {
                answer = Some(Offset {
                    start: k,
                    elements: 1,
                    time_match: index == sought,
                    next_index: None,
                });
            }
        }
    }
    answer
}

/// The bits of a derivation's inputs by name, the highest first.
fn bits_of(d: &Derivation) -> Vec<(u32, u64)> {
    let mut bits = Vec::new();
    for piece in &d.pieces[..d.piece_count as usize] {
        let (width, lsb) = (piece >> 32 & 0xFFFF, piece & 0xFFFF_FFFF);
        let name = d.inputs[(piece >> 48) as usize];
        bits.extend((lsb..lsb + width).rev().map(|bit| (name, bit)));
    }
    bits
}

#[test]
fn added_pieces_are_the_longest_runs_of_their_bits() {
    let mut merged = 0;
    for seed in 1..=CASES {
        let mut random = Random::new(seed);
        let mut d = empty_derivation();
        let mut bits: Vec<(u32, u64)> = Vec::new();
        for _ in 0..random.below(12) {
            let name = random.below(3) as u32;
            let lsb = random.below(5) as u32;
            let msb = lsb + random.below(3) as u32;
            let new = (lsb..=msb).rev().map(|bit| (name, u64::from(bit)));
            let side = random.pick(&[Side::Left, Side::Right]);
            let at = if side == Side::Left { 0 } else { bits.len() };
            bits.splice(at..at, new);
            let next = add_piece(&d, side, name, msb, lsb).unwrap();
            merged += u32::from(next.piece_count == d.piece_count);
            d = next;
            let adjoin = |a: &(u32, u64), b: &(u32, u64)| a.0 == b.0 && a.1 == b.1 + 1;
            assert_eq!(bits_of(&d), bits);
            assert_eq!(d.width as usize, bits.len());
            assert_eq!(d.piece_count as usize, bits.chunk_by(adjoin).count());
        }
    }
    assert!(merged > 50, "{merged}");
}

#[test]
fn a_repeat_over_full_slices_is_dropped() {
    for seed in 1..=CASES {
        let mut random = Random::new(seed);
        let width = random.pick(&WIDTHS);
        let mut record = any_record(&mut random, width).with_room(500, 1);
        let change = Change::Text(random.string(width));
        assert_eq!(record.add(u32::MAX, &change), Ok(()));
        let description = record.description;
        let mut full = Recorder::with(description, record.used_bytes(), record.used_indices());
        assert_eq!(full.add(u32::MAX, &change), Ok(()));
        assert_eq!(full.description, description);
        assert_eq!(full.used_bytes(), record.used_bytes());
    }
}
