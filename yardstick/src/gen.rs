//! Made-up grammars and records for tests and timing. Everything follows from
//! a seed, so a job can be made again.

use crate::alphabet;
use crate::plain::{plain, Plain, Symbol, Terminal};
use crate::{limits, statics, syntax};

/// The splitmix64 generator.
#[derive(Clone, Debug)]
pub struct Random(u64);

impl Random {
    pub fn new(seed: u64) -> Random {
        Random(seed)
    }

    pub fn number(&mut self) -> u64 {
        self.0 = self.0.wrapping_add(0x9E37_79B9_7F4A_7C15);
        let mut mixed = self.0;
        mixed = (mixed ^ (mixed >> 30)).wrapping_mul(0xBF58_476D_1CE4_E5B9);
        mixed = (mixed ^ (mixed >> 27)).wrapping_mul(0x94D0_49BB_1331_11EB);
        mixed ^ (mixed >> 31)
    }

    /// A number below `bound`, which is not 0.
    pub fn below(&mut self, bound: usize) -> usize {
        (self.number() % bound as u64) as usize
    }

    pub fn chance(&mut self, percent: usize) -> bool {
        self.below(100) < percent
    }

    pub fn pick<'a, T>(&mut self, choices: &'a [T]) -> &'a T {
        &choices[self.below(choices.len())]
    }
}

/// What a made-up grammar is meant to show.
#[derive(Clone, Copy, Debug, PartialEq, Eq)]
pub enum Style {
    Ordinary,
    /// Alternatives repeat, and rules overlap.
    Ambiguous,
    /// Rules derive themselves.
    Endless,
    /// Most rules may be empty.
    Empty,
    /// An ordinary text with some characters changed.
    Damaged,
}

impl Style {
    pub const ALL: [Style; 5] = [
        Style::Ordinary,
        Style::Ambiguous,
        Style::Endless,
        Style::Empty,
        Style::Damaged,
    ];
}

#[derive(Clone, Debug)]
pub struct Job {
    pub grammar: String,
    pub record: String,
}

/// A job of any style, mostly with a short record.
pub fn any_job(random: &mut Random) -> Job {
    let style = *random.pick(&Style::ALL);
    let longest = match random.below(1000) {
        0..=1 => limits::RECORD_CHARACTERS,
        2..=49 => 40,
        50..=299 => 20,
        _ => 8,
    };
    job(random, style, longest)
}

/// A small grammar with a record of at most `longest` characters, which the
/// grammar mostly derives.
pub fn job(random: &mut Random, style: Style, longest: usize) -> Job {
    let mut grammar = grammar(random, style);
    // A rule that derives nothing is common among made-up ones, and such a
    // grammar is refused whatever the record is: most are made anew.
    while random.below(8) != 0 && crate::check(grammar.as_bytes()).number == 24 {
        grammar = self::grammar(random, style);
    }
    let record = record(random, &grammar, longest);
    Job { grammar, record }
}

const NAMES: [&str; 5] = ["a", "b", "c.", "xmlns", "dª"];
const STRINGS: [&str; 9] = [
    "\"x\"", "'y'", "\"xy\"", "\"z\"", "\"'\"", "\"<\"", "#78", "#A", "\"é\"",
];
const SETS: [&str; 9] = [
    "[\"xy\"]",
    "[\"x\"-\"z\"]",
    "[L]",
    "~[\"x\"]",
    "~[]",
    "[]",
    "[Nd; #79]",
    "[Ll | 'z']",
    "~[Lu]",
];

/// The text of a grammar of a few short rules.
pub fn grammar(random: &mut Random, style: Style) -> String {
    let mut writer = Writer {
        names: &NAMES[..1 + random.below(NAMES.len())],
        random,
        style,
        text: String::new(),
    };
    writer.grammar();
    let Writer { mut text, .. } = writer;
    if style == Style::Damaged {
        for _ in 0..=random.below(2) {
            text = damage(random, &text);
        }
    }
    text
}

struct Writer<'a> {
    random: &'a mut Random,
    style: Style,
    names: &'a [&'a str],
    text: String,
}

impl Writer<'_> {
    fn grammar(&mut self) {
        if self.random.chance(5) {
            let version = *self.random.pick(&["1.0", "2", "1.0 "]);
            self.text.push_str(&format!("ixml version \"{version}\". "));
        }
        for &name in self.names {
            if self.random.chance(30) {
                let mark = *self.random.pick(&["-", "@", "^", "- "]);
                self.text.push_str(mark);
            }
            self.text.push_str(name);
            let sign = *self.random.pick(&[": ", ":", " = "]);
            self.text.push_str(sign);
            self.alternatives(2);
            let end = *self.random.pick(&[" . ", ".\n", ". {c} "]);
            let end = if self.text.ends_with(name_end) {
                " . "
            } else {
                end
            };
            self.text.push_str(end);
        }
    }

    fn alternatives(&mut self, brackets: usize) {
        let more = if self.style == Style::Ambiguous { 3 } else { 2 };
        let start = self.text.len();
        self.alternative(brackets);
        for _ in 0..self.random.below(more + 1) {
            if self.style == Style::Ambiguous && self.random.chance(25) {
                let copy = self.text[start..].to_string();
                self.text.push_str("; ");
                self.text.push_str(&copy);
                return;
            }
            let sign = *self.random.pick(&["; ", "|"]);
            self.text.push_str(sign);
            self.alternative(brackets);
        }
    }

    fn alternative(&mut self, brackets: usize) {
        let empty = if self.style == Style::Empty { 35 } else { 8 };
        if self.random.chance(empty) {
            return;
        }
        if self.style == Style::Endless && self.random.chance(40) {
            let name = *self.random.pick(self.names);
            self.text.push_str(name);
            self.text.push(' ');
            return;
        }
        self.term(brackets);
        for _ in 0..self.random.below(3) {
            self.text.push_str(", ");
            self.term(brackets);
        }
    }

    fn term(&mut self, brackets: usize) {
        self.factor(brackets);
        let repeated = match self.style {
            Style::Empty | Style::Endless => 35,
            _ => 20,
        };
        if !self.random.chance(repeated) {
            return;
        }
        match self.random.below(5) {
            0 => self.text.push('?'),
            1 => self.text.push('*'),
            2 => self.text.push('+'),
            3 => {
                self.text.push_str("**");
                self.factor(brackets);
            }
            _ => {
                self.text.push_str("++");
                self.factor(brackets);
            }
        }
    }

    fn factor(&mut self, brackets: usize) {
        let names = match self.style {
            Style::Ambiguous | Style::Endless => 45,
            _ => 30,
        };
        if self.random.chance(names) {
            let mark = *self.random.pick(&["", "", "", "^", "@", "-"]);
            let name = *self.random.pick(self.names);
            self.text.push_str(mark);
            self.text.push_str(name);
            self.text.push(' ');
        } else if brackets > 0 && self.random.chance(15) {
            self.text.push('(');
            self.alternatives(brackets - 1);
            self.text.push(')');
        } else if self.random.chance(12) {
            let string = *self.random.pick(&["\"i\"", "'&'", "#1", "#20AC", "\"'\""]);
            self.text.push('+');
            self.text.push_str(string);
        } else {
            let mark = *self.random.pick(&["", "", "", "^", "-"]);
            let set = self.random.chance(30);
            let choices = if set { &SETS[..] } else { &STRINGS[..] };
            let terminal = *self.random.pick(choices);
            self.text.push_str(mark);
            self.text.push_str(terminal);
        }
    }
}

/// Whether a full stop behind this character would belong to a name.
fn name_end(character: char) -> bool {
    character.is_alphanumeric() || character == '.'
}

/// A text, not empty, with one character taken out, put in, doubled or
/// exchanged.
pub fn damage(random: &mut Random, text: &str) -> String {
    const CHARACTERS: [char; 24] = [
        '.', ',', ';', ':', '(', ')', '[', ']', '{', '}', '"', '\'', '#', '+', '*', '-', '@', '~',
        'a', 'q', 'F', '0', ' ', '\u{AD}',
    ];
    let mut characters: Vec<char> = text.chars().collect();
    let at = random.below(characters.len());
    let other = *random.pick(&CHARACTERS);
    match random.below(4) {
        0 => {
            characters.remove(at);
        }
        1 => characters.insert(at, other),
        2 => characters.insert(at, characters[at]),
        _ => characters[at] = other,
    }
    characters.into_iter().collect()
}

const RECORD_CHARACTERS: [char; 9] = ['x', 'y', 'z', 'x', 'y', '\'', '<', '\n', 'é'];

/// A record that the grammar mostly derives; made of chance characters if the
/// grammar is refused or derives nothing short enough.
pub fn record(random: &mut Random, grammar: &str, longest: usize) -> String {
    let mut characters = Vec::new();
    let accepted = syntax::read(grammar).ok();
    let accepted = accepted.filter(|syntax| statics::check(syntax, grammar).is_ok());
    let found = accepted.is_some_and(|syntax| {
        let sampler = Sampler::new(plain(&syntax));
        (0..4).any(|_| {
            characters.clear();
            sampler.sample(random, longest, &mut characters)
        })
    });
    if !found {
        characters = (0..random.below(longest + 1))
            .map(|_| *random.pick(&RECORD_CHARACTERS))
            .collect();
    } else if random.chance(10) && !characters.is_empty() {
        let at = random.below(characters.len());
        characters[at] = *random.pick(&RECORD_CHARACTERS);
    }
    characters.into_iter().collect()
}

/// Draws sentences from plain rules.
struct Sampler<'t> {
    plain: Plain<'t>,
    /// For each rule an alternative on a shortest way down, if it derives anything.
    quickest: Vec<Option<usize>>,
}

impl<'t> Sampler<'t> {
    fn new(plain: Plain<'t>) -> Sampler<'t> {
        let mut quickest: Vec<Option<usize>> = vec![None; plain.rules.len()];
        loop {
            let known = quickest.clone();
            let ends = |symbol: &Symbol| match symbol {
                Symbol::Terminal { terminal, .. } => {
                    example(&plain.terminals[*terminal], 0).is_some()
                }
                Symbol::Insertion(_) => true,
                Symbol::Nonterminal { rule, .. } => known[*rule].is_some(),
            };
            for (rule, found) in plain.rules.iter().zip(&mut quickest) {
                let mut alternatives = rule.alternatives.iter();
                *found =
                    found.or_else(|| alternatives.position(|symbols| symbols.iter().all(ends)));
            }
            if known == quickest {
                return Sampler { plain, quickest };
            }
        }
    }

    /// Appends a sentence of the root. `false` if there is none or it grows
    /// too long.
    fn sample(&self, random: &mut Random, longest: usize, out: &mut Vec<char>) -> bool {
        let mut steps = 0;
        let mut stack = vec![Symbol::Nonterminal {
            rule: 0,
            mark: None,
        }];
        while let Some(symbol) = stack.pop() {
            match symbol {
                Symbol::Insertion(_) => {}
                Symbol::Terminal { terminal, .. } => {
                    match example(
                        &self.plain.terminals[terminal],
                        random.below(alphabet::KNOWN),
                    ) {
                        Some(text) => out.extend(text),
                        None => return false,
                    }
                }
                Symbol::Nonterminal { rule, .. } => {
                    let Some(quickest) = self.quickest[rule] else {
                        return false;
                    };
                    steps += 1;
                    let alternatives = &self.plain.rules[rule].alternatives;
                    let wanders = steps < 4 * longest && out.len() < longest;
                    let any = random.below(alternatives.len());
                    let number = if wanders { any } else { quickest };
                    stack.extend(alternatives[number].iter().rev());
                }
            }
            if out.len() > longest || steps > 64 * (longest + 1) {
                return false;
            }
        }
        true
    }
}

/// A text that a terminal matches in a record, if there is one.
fn example(terminal: &Terminal, chance: usize) -> Option<Vec<char>> {
    match terminal {
        Terminal::Literal(string) => {
            let known = string
                .iter()
                .all(|&character| alphabet::contains(character));
            known.then(|| string.clone())
        }
        Terminal::Set(set) => {
            let usual = RECORD_CHARACTERS
                .into_iter()
                .cycle()
                .skip(chance % 9)
                .take(9);
            let any = alphabet::characters()
                .cycle()
                .skip(chance)
                .take(alphabet::KNOWN);
            let character = usual
                .chain(any)
                .find(|&character| set.contains(character))?;
            Some(vec![character])
        }
    }
}

/// A family of grammars in which a record has one derivation at most: fields
/// of a name and a value. At least of size 41.
pub fn fields(size: usize) -> String {
    of_size(size, |count| {
        let mut text = String::from(
            "log: field++-';'. value: number; word. number: digit+. word: letter+. \
             -letter: ['a'-'z']. -digit: ['0'-'9']. field: ",
        );
        let names: Vec<String> = (0..count).map(|number| format!("f{number}")).collect();
        text.push_str(&names.join("; "));
        text.push_str(" . ");
        for name in names {
            text.push_str(&format!("{name}: -'{name}=', value. "));
        }
        text
    })
}

/// A record of exactly this length, at least 6, for `fields`. The names in it
/// are found in every grammar of the family.
pub fn fields_record(length: usize) -> String {
    const VALUES: [&str; 4] = ["17", "depth", "3", "salt"];
    let mut record = String::from("f0=ok");
    for value in VALUES.iter().cycle() {
        let field = format!(";f0={value}");
        if record.len() + field.len() > length {
            break;
        }
        record.push_str(&field);
    }
    let last = record.chars().last().unwrap_or('x');
    record.extend(std::iter::repeat_n(last, length - record.len()));
    record
}

/// A family of grammars in which every rule derives every record of `x` and
/// `y` in very many ways. At least of size 10.
pub fn pairs(size: usize) -> String {
    of_size(size, |count| {
        let rule = |number: usize| {
            let (left, right) = ((number * 7 + 1) % count, (number * 3 + 2) % count);
            format!("r{number}: r{left}, r{right}; r{right}, r{left}; 'x'; 'y'. ")
        };
        (0..count).map(rule).collect()
    })
}

/// A family of grammars with one rule of many alternatives, all alike. At
/// least of size 8.
pub fn copies(size: usize) -> String {
    of_size(size, |count| {
        format!("a: {}'x'; 'y'.\n", "a, a; ".repeat(count))
    })
}

/// A family of grammars with one rule of many repetitions. At least of size 6.
pub fn stars(size: usize) -> String {
    of_size(size, |count| {
        format!("a: {}.\n", vec!["['xy']*"; count].join(", "))
    })
}

/// A family of grammars with one long alternative of a repeated symbol, tried
/// at every place: the slowest kind found so far. At least of size 11.
pub fn runs(size: usize) -> String {
    of_size(size, |count| {
        let uses = vec!["s"; count].join(", ");
        format!("a: {uses}; ['xy'], a. s: ['xy'], s; .\n")
    })
}

/// A family of grammars with a chain of rules, each of which is the next alone,
/// written down in no order. At least of size 9.
pub fn chains(size: usize) -> String {
    of_size(size, |count| {
        let mut order: Vec<usize> = (1..=count).collect();
        order.sort_by_key(|number| number * 40_503 % 65_536);
        let rule = |number: usize| format!("r{number}: r{}. ", number - 1);
        let rules: String = order.into_iter().map(rule).collect();
        format!("a: r{count}. {rules}r0: ['xy'], r0; .\n")
    })
}

/// A record of `x` and `y`.
pub fn letters(length: usize) -> String {
    "xyx".chars().cycle().take(length).collect()
}

/// The largest grammar of a family that is not over a size, filled up to it
/// by a rule that nothing uses.
fn of_size(size: usize, family: impl Fn(usize) -> String) -> String {
    let size_of = |text: &str| statics::size(&syntax::read(text).expect("made to be ixml"));
    let fits = |count: &usize| size_of(&family(*count)) <= size;
    let count = (1..).take_while(fits).last().expect("size for one");
    let mut text = family(count);
    let missing = size - size_of(&text);
    if missing > 0 {
        text.push_str(&format!("unused: {}.", ";".repeat(missing - 1)));
    }
    text
}
