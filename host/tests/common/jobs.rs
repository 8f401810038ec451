//! Jobs at the limits.

use ixml::limits::RECORD_CHARACTERS;
use ixml_yardstick::gen;

use super::Job;

/// A reading of so many numbers, from 4,020 on, in which each node but the
/// last has one node below it. All rules but the root's carry the mark.
pub fn deep(mark: &str, numbers: usize) -> Job {
    const CYCLE: usize = 20;
    let before = numbers - CYCLE * (RECORD_CHARACTERS + 1);
    let rules = before + CYCLE;
    let mut grammar = String::new();
    for rule in 0..rules {
        let mark = if rule == 0 { "" } else { mark };
        if rule + 1 < rules {
            grammar.push_str(&format!("{mark}r{rule}: r{} . ", rule + 1));
        } else {
            grammar.push_str(&format!("{mark}r{rule}: 'x', r{before} ; ."));
        }
    }
    Job::new(grammar, "x".repeat(RECORD_CHARACTERS))
}

/// A reading of 4,096 numbers that is four nodes high.
pub fn wide() -> Job {
    let uses = |count: usize, name: &str| vec![name; count].join(",");
    let rules = [uses(15, "b"), uses(16, "c"), uses(16, "d")];
    let [a, b, c] = rules;
    Job::new(format!("a: {a} . b: {b} . c: {c} . d: ."), "")
}

/// Each rule twice the next: 2^(levels + 1) - 1 numbers.
pub fn doublings(mark: &str, levels: usize) -> Job {
    let mut grammar = String::new();
    for rule in 0..levels {
        grammar.push_str(&format!("{mark}n{rule}: n{0}, n{0} . ", rule + 1));
    }
    Job::new(format!("{grammar}n{levels}: ."), "")
}

/// An element with as many attributes as the size allows, each behind its own
/// deleted node.
pub fn attributes(count: usize) -> Job {
    let uses: Vec<String> = (0..count).map(|number| format!("(@a{number} )")).collect();
    let rules: String = (0..count).map(|number| format!("a{number}:. ")).collect();
    Job::new(format!("e: {} . {rules}", uses.join(",")), "")
}

/// Jobs that take a good deal of stack or scratch in a careless engine.
pub fn awkward() -> Vec<Job> {
    let x = "x".repeat(RECORD_CHARACTERS);
    let stars = |depth: usize| format!("a: {}'x'{}.", "(".repeat(depth), "*)".repeat(depth));
    let mut jobs = vec![
        wide(),
        attributes(60),
        Job::new("a: ~[]*.", &x),
        Job::new("a: ~[]*.", "x".repeat(RECORD_CHARACTERS + 1)),
        Job::new("a: a.", &x),
        Job::new("a: 'x', a.", &x),
        Job::new("a: a, 'x'; .", &x),
        Job::new("a: 'x', a; .", &x),
        Job::new("a: a; a, a; 'x'; .", &x),
        Job::new("a: b, a; b. b: a?, 'x'; 'x'*.", &x),
        Job::new("a: (@b)*. b: 'x'.", &x),
        Job::new(stars(3), &x),
        Job::new(stars(15), &x[..40]),
        Job::new(stars(16), &x[..20]),
        Job::new(format!("a: '{x}'; 'x'+."), &x),
        Job::new("a: [L]*, [Ll]*, ~[Nd]*.", "é".repeat(RECORD_CHARACTERS)),
        Job::new("a: \"x\".", vec![b'x'; 1 << 20]),
        Job::new(vec![b' '; 1 << 20], ""),
    ];
    for mark in ["", "-", "@"] {
        jobs.extend([4095, 4096, 4097].map(|numbers| deep(mark, numbers)));
        jobs.extend([10, 11, 12, 31, 63, 64, 65, 100].map(|levels| doublings(mark, levels)));
    }
    jobs
}

/// Grammars of full size with records of full length.
pub fn full_size() -> Vec<Job> {
    let letters = gen::letters(RECORD_CHARACTERS);
    let families = [gen::pairs, gen::copies, gen::stars, gen::runs, gen::chains];
    let mut jobs = vec![Job::new(
        gen::fields(512),
        gen::fields_record(RECORD_CHARACTERS),
    )];
    jobs.extend(families.map(|family| Job::new(family(512), &letters)));
    jobs
}
