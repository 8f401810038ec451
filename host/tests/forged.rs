//! States and tables that no read left: exchanged, cut, forged and altered.
//!
//! Of such only this is promised: each call ends with an answer, a refusal leaves
//! everything alone (`Memory` sees to both), and an end of a read gives nothing but
//! 27, 15, 26 or what the uncut call gives.

mod common;

use common::cut::{refused, uncut, Memory};
use common::{on_small_stack, Job};
use ixml::rounds::NONE;
use ixml_yardstick::gen::Random;
use std::collections::BTreeMap;

const FORGERIES: usize = 6_000;

/// The longest record of a job, in bytes.
const BYTES: usize = 6;

/// Most rounds that a state may tell of.
const MOST_ROUNDS: u32 = 102_912;

/// A job that is not refused, and its memory after a random count of rounds.
fn begun(random: &mut Random) -> (Job, Memory) {
    loop {
        let job = Job::made_up(random);
        let mut memory = Memory::of(&job, random.number() as u32);
        if job.record.len() > BYTES || memory.start(&job).answer.number != 0 {
            continue;
        }
        let asked = if random.chance(60) {
            100
        } else {
            random.below(4)
        };
        for _ in 0..asked {
            memory.round(&job);
        }
        return (job, memory);
    }
}

/// Whether a state is one of this grammar and this record, by its numbers.
fn belongs(state: &[u32], job: &Job) -> bool {
    let texts = [(8, &job.grammar), (4104, &job.record)];
    state[0] == 0x6978_6d6c
        && state[1] <= MOST_ROUNDS
        && state[2] <= 1
        && state[3] as usize == job.grammar.len()
        && state[4] as usize == job.record.len()
        && texts.iter().all(|&(at, text)| {
            let bytes = text.iter().map(|&byte| u32::from(byte));
            state[at..].iter().copied().zip(bytes).all(|(a, b)| a == b)
        })
}

/// A number that a forger may try.
fn any_number(random: &mut Random, near: u32) -> u32 {
    match random.below(8) {
        0 => NONE,
        1 => NONE - 1,
        2 => 0,
        3 => near.wrapping_add(1),
        4 => near.wrapping_sub(1),
        5 => random.below(8) as u32,
        6 => 1 << random.below(32),
        _ => random.number() as u32,
    }
}

fn forge_state(random: &mut Random, state: &mut [u32], job: &Job) {
    let at = match random.below(4) {
        0 => random.below(8),
        1 => 8 + random.below(job.grammar.len().max(1)),
        2 => 4104 + random.below(job.record.len().max(1)),
        _ => random.below(state.len()),
    };
    match random.below(6) {
        0 => state[at..].fill(0),
        1 => state[..at].fill(0),
        2 => state[2] = 1 - state[2].min(1),
        3 => state[1] = random.below(2 * MOST_ROUNDS as usize) as u32,
        _ => state[at] = any_number(random, state[at]),
    }
}

fn forge_table(random: &mut Random, table: &mut [u32]) {
    if table.is_empty() {
        return;
    }
    match random.below(8) {
        0 => table.fill(any_number(random, 0)),
        1 => table
            .iter_mut()
            .for_each(|cell| *cell = random.below(5) as u32),
        2 => {
            let at = random.below(table.len());
            table[at..].fill(NONE);
        }
        3 => {
            let (one, other) = (random.below(table.len()), random.below(table.len()));
            table.swap(one, other);
        }
        _ => {
            for _ in 0..=random.below(3) {
                let at = random.below(table.len());
                table[at] = any_number(random, table[at]);
            }
        }
    }
}

/// Ends a read of which nothing is known but that the state belongs to it or not.
/// `finished` is the table of the finished read.
fn end(memory: &mut Memory, job: &Job, finished: &[u32]) -> u32 {
    let state = memory.state.cells().to_vec();
    let rounds = state[1] as usize;
    let (read, converted) = uncut(job, memory);
    let expected = match (belongs(&state, job), state[2]) {
        (false, _) => Some(refused(27, 0)),
        (true, 0) => Some(refused(26, rounds)),
        (true, _) if memory.main.cells() != finished => Some(refused(27, 0)),
        _ => None,
    };
    let (ended, numbers) = memory.read(job);
    let (ended_xml, xml) = memory.convert(job);
    match expected {
        Some(expected) => assert_eq!((ended, ended_xml), (expected, expected), "{job:?}"),
        None => {
            assert_eq!((ended.answer, numbers), read, "{job:?}");
            assert_eq!((ended_xml.answer, xml), converted, "{job:?}");
            assert_eq!(
                (ended.rounds, ended_xml.rounds),
                (rounds, rounds),
                "{job:?}"
            );
        }
    }
    ended.answer.number
}

/// The table of a finished read, which is the same whoever counts its rounds.
fn finished(job: &Job) -> Vec<u32> {
    let mut memory = Memory::of(job, 0);
    memory.start(job);
    while !memory.is_finished() {
        memory.round(job);
    }
    memory.kept().0
}

fn count(numbers: &mut BTreeMap<u32, usize>, number: u32) {
    *numbers.entry(number).or_default() += 1;
}

/// A read is forged, goes on for some rounds and is ended.
#[test]
fn forged_states_and_tables() {
    on_small_stack(|| {
        let mut random = Random::new(27);
        let mut numbers = BTreeMap::new();
        let mut unforged = 0;
        for _ in 0..FORGERIES {
            let (job, mut memory) = begun(&mut random);
            let whole = finished(&job);
            if random.chance(60) {
                forge_table(&mut random, memory.main.lend());
            }
            if random.chance(60) {
                forge_state(&mut random, memory.state.lend(), &job);
            }
            for _ in 0..random.below(4) {
                let state = memory.state.cells();
                let number = if belongs(state, &job) { 0 } else { 27 };
                let told = (number == 0).then_some(state[1] + (1 - state[2].min(1)));
                let progress = memory.round(&job);
                assert_eq!(progress.answer.number, number, "{job:?}");
                assert_eq!(progress.rounds, told.unwrap_or(0) as usize, "{job:?}");
            }
            unforged += usize::from(memory.main.cells() == whole);
            count(&mut numbers, end(&mut memory, &job, &whole));
        }
        println!("{numbers:?}, {unforged} tables that are finished ones");
        for number in [0, 16, 26, 27] {
            assert!(numbers[&number] > FORGERIES / 100, "{number}");
        }
    });
}

/// States and tables of two reads are exchanged, and grammars and records.
#[test]
fn exchanged_states_and_tables() {
    on_small_stack(|| {
        let mut random = Random::new(28);
        let mut numbers = BTreeMap::new();
        for _ in 0..FORGERIES / 4 {
            let (job, mut memory) = begun(&mut random);
            let (other, lent) = begun(&mut random);
            let whole = finished(&job);
            let (table, state) = lent.kept();
            if random.chance(50) {
                memory.state.lend().copy_from_slice(&state);
            } else {
                let main = memory.main.lend();
                let shared = main.len().min(table.len());
                main[..shared].copy_from_slice(&table[..shared]);
            }
            count(&mut numbers, end(&mut memory, &job, &whole));
            let mixed = Job::new(&job.grammar, &other.record);
            let alien = !belongs(memory.state.cells(), &mixed);
            let number = memory.round(&mixed).answer.number;
            assert!(!alien || number == 27, "{mixed:?}");
        }
        println!("{numbers:?}");
        assert!(numbers[&27] > FORGERIES / 20);
    });
}

/// A table that is set back to an earlier round, or forward to a later one.
#[test]
fn tables_set_back() {
    on_small_stack(|| {
        let mut random = Random::new(29);
        let mut numbers = BTreeMap::new();
        for _ in 0..FORGERIES / 10 {
            let (job, mut memory) = begun(&mut random);
            let whole = finished(&job);
            let mut tables = vec![whole.clone()];
            memory.start(&job);
            while !memory.is_finished() {
                tables.push(memory.kept().0);
                memory.round(&job);
            }
            let table = random.pick(&tables);
            memory.main.lend().copy_from_slice(table);
            count(&mut numbers, end(&mut memory, &job, &whole));
        }
        println!("{numbers:?}");
        assert!(numbers[&27] > FORGERIES / 100);
        assert!(numbers[&0] > FORGERIES / 100);
    });
}
