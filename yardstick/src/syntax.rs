//! The grammar text as a tree.
//!
//! A recursive-descent reader of the complete ixml grammar. The language needs
//! one character of lookahead except in two places: the prolog, and a name that
//! ends in a full stop. Every fault is the same refusal, so a failed step
//! carries no detail.

use crate::category;
use crate::limits::NESTING;

/// How many bytes of the text are left at a place. Places are no part of what
/// a grammar says, so they make no difference between two.
#[derive(Clone, Copy, Debug, Default)]
pub struct Left(pub usize);

impl PartialEq for Left {
    fn eq(&self, _: &Left) -> bool {
        true
    }
}

impl Eq for Left {}

/// The text is not in the ixml language, or nests too deep.
#[derive(Clone, Copy, Debug, PartialEq, Eq)]
pub struct NotIxml;

type Parsed<T> = Result<T, NotIxml>;

#[derive(Clone, Debug, PartialEq, Eq)]
pub struct Grammar<'t> {
    /// The version string of the prolog, quotes undoubled.
    pub version: Option<Vec<char>>,
    pub rules: Vec<Rule<'t>>,
}

#[derive(Clone, Debug, PartialEq, Eq)]
pub struct Rule<'t> {
    pub mark: Option<Mark>,
    pub name: &'t str,
    pub alternatives: Alternatives<'t>,
}

#[derive(Clone, Copy, Debug, PartialEq, Eq)]
pub enum Mark {
    Element,
    Attribute,
    Deleted,
}

pub type Alternatives<'t> = Vec<Vec<Term<'t>>>;

#[derive(Clone, Debug, PartialEq, Eq)]
pub enum Term<'t> {
    Once(Factor<'t>),
    Option(Factor<'t>),
    Star(Factor<'t>),
    Plus(Factor<'t>),
    StarSeparated(Factor<'t>, Factor<'t>),
    PlusSeparated(Factor<'t>, Factor<'t>),
}

#[derive(Clone, Debug, PartialEq, Eq)]
pub enum Factor<'t> {
    Literal { mark: Option<Mark>, text: Text },
    Set { mark: Option<Mark>, set: Set<'t> },
    Insertion(Text),
    Nonterminal { mark: Option<Mark>, name: &'t str },
    Bracket(Alternatives<'t>),
}

/// A quoted string or one encoded character.
#[derive(Clone, Debug, PartialEq, Eq)]
pub enum Text {
    Quoted(Vec<char>),
    Encoded(Hex),
}

#[derive(Clone, Debug, PartialEq, Eq)]
pub struct Set<'t> {
    pub excluded: bool,
    pub members: Vec<Member<'t>>,
}

#[derive(Clone, Debug, PartialEq, Eq)]
pub enum Member<'t> {
    Text(Text),
    Range(Bound, Bound, Left),
    Class(&'t str),
}

/// One end of a range.
#[derive(Clone, Copy, Debug, PartialEq, Eq)]
pub enum Bound {
    Character(char),
    Encoded(Hex),
}

impl Bound {
    pub fn code(self) -> u32 {
        match self {
            Bound::Character(character) => character as u32,
            Bound::Encoded(hex) => hex.code(),
        }
    }
}

/// The value of a hex number. Digits have no limit, so the value stops at the
/// first number above the code points instead of wrapping.
#[derive(Clone, Copy, Debug, Default, PartialEq, Eq)]
pub struct Hex(u32, pub Left);

impl Hex {
    const TOO_LARGE: u32 = 0x11_0000;

    fn append(self, digit: u32) -> Hex {
        Hex((self.0 * 16 + digit).min(Self::TOO_LARGE), self.1)
    }

    pub fn code(self) -> u32 {
        self.0
    }

    pub fn is_too_large(self) -> bool {
        self.0 == Self::TOO_LARGE
    }

    /// Surrogates; U+FDD0 to U+FDEF; the last two code points of each plane.
    pub fn is_no_character(self) -> bool {
        let surrogate = (0xD800..=0xDFFF).contains(&self.0);
        let noncharacter = (0xFDD0..=0xFDEF).contains(&self.0) || self.0 & 0xFFFE == 0xFFFE;
        !self.is_too_large() && (surrogate || noncharacter)
    }
}

/// Calls `visit` for every factor, bracketed ones included.
pub fn each_factor<'a, 't>(
    alternatives: &'a Alternatives<'t>,
    visit: &mut impl FnMut(&'a Factor<'t>),
) {
    for term in alternatives.iter().flatten() {
        let (first, second) = match term {
            Term::Once(f) | Term::Option(f) | Term::Star(f) | Term::Plus(f) => (f, None),
            Term::StarSeparated(f, s) | Term::PlusSeparated(f, s) => (f, Some(s)),
        };
        for factor in std::iter::once(first).chain(second) {
            visit(factor);
            if let Factor::Bracket(inner) = factor {
                each_factor(inner, visit);
            }
        }
    }
}

/// Reads a whole grammar text.
pub fn read(text: &str) -> Parsed<Grammar<'_>> {
    Reader { rest: text }.grammar()
}

fn is_name_start(character: char) -> bool {
    character == '_' || category::is_letter(character)
}

fn is_name_follower(character: char) -> bool {
    is_name_start(character)
        || matches!(character, '-' | '.' | '\u{B7}' | '\u{203F}' | '\u{2040}')
        || category::is_digit_or_combining(character)
}

fn is_whitespace(character: char) -> bool {
    category::is_space(character) || matches!(character, '\t' | '\n' | '\r')
}

fn mark(character: char) -> Option<Mark> {
    match character {
        '^' => Some(Mark::Element),
        '@' => Some(Mark::Attribute),
        '-' => Some(Mark::Deleted),
        _ => None,
    }
}

/// What is left of the text.
#[derive(Clone)]
struct Reader<'t> {
    rest: &'t str,
}

impl<'t> Reader<'t> {
    fn left(&self) -> Left {
        Left(self.rest.len())
    }

    fn peek(&self) -> Option<char> {
        self.rest.chars().next()
    }

    fn next(&mut self) -> Parsed<char> {
        let mut characters = self.rest.chars();
        let character = characters.next().ok_or(NotIxml)?;
        self.rest = characters.as_str();
        Ok(character)
    }

    fn take(&mut self, wanted: &str) -> bool {
        match self.rest.strip_prefix(wanted) {
            Some(rest) => {
                self.rest = rest;
                true
            }
            None => false,
        }
    }

    fn expect(&mut self, wanted: &str) -> Parsed<()> {
        self.take(wanted).then_some(()).ok_or(NotIxml)
    }

    /// Takes one of two equivalent characters.
    fn take_either(&mut self, wanted: [&str; 2]) -> bool {
        wanted.into_iter().any(|one| self.take(one))
    }

    /// Skips spacing and comments.
    fn spacing(&mut self) -> Parsed<()> {
        loop {
            self.rest = self.rest.trim_start_matches(is_whitespace);
            if !self.take("{") {
                return Ok(());
            }
            self.comment(NESTING - 1)?;
        }
    }

    /// Skips at least one space or comment.
    fn required_spacing(&mut self) -> Parsed<()> {
        let before = self.rest.len();
        self.spacing()?;
        (self.rest.len() < before).then_some(()).ok_or(NotIxml)
    }

    /// Skips a comment whose opening brace is taken; `allowed` more levels may
    /// open inside it.
    fn comment(&mut self, allowed: usize) -> Parsed<()> {
        loop {
            match self.next()? {
                '}' => return Ok(()),
                '{' => self.comment(allowed.checked_sub(1).ok_or(NotIxml)?)?,
                _ => {}
            }
        }
    }

    fn grammar(mut self) -> Parsed<Grammar<'t>> {
        self.spacing()?;
        let version = self.prolog()?;
        let mut rules = vec![self.rule()?];
        while !self.rest.is_empty() {
            self.required_spacing()?;
            if !self.rest.is_empty() {
                rules.push(self.rule()?);
            }
        }
        Ok(Grammar { version, rules })
    }

    /// A rule may be named `ixml` too, but then no name can follow, so
    /// `ixml version` settles that this is a prolog.
    fn prolog(&mut self) -> Parsed<Option<Vec<char>>> {
        let mut ahead = self.clone();
        if !ahead.take("ixml") || ahead.required_spacing().is_err() || !ahead.take("version") {
            return Ok(None);
        }
        *self = ahead;
        self.required_spacing()?;
        let version = self.string()?;
        self.spacing()?;
        self.expect(".")?;
        self.spacing()?;
        Ok(Some(version))
    }

    fn rule(&mut self) -> Parsed<Rule<'t>> {
        let mark = self.peek().and_then(mark);
        if mark.is_some() {
            self.next()?;
            self.spacing()?;
        }
        let name = self.name_run().ok_or(NotIxml)?;
        self.spacing()?;
        if !self.take_either(["=", ":"]) {
            return Err(NotIxml);
        }
        self.spacing()?;
        let alternatives = self.alternatives(NESTING)?;
        self.expect(".")?;
        Ok(Rule {
            mark,
            name,
            alternatives,
        })
    }

    /// Alternatives in which `allowed` levels of brackets may still open.
    fn alternatives(&mut self, allowed: usize) -> Parsed<Alternatives<'t>> {
        let mut alternatives = vec![self.alternative(allowed)?];
        while self.take_either([";", "|"]) {
            self.spacing()?;
            alternatives.push(self.alternative(allowed)?);
        }
        Ok(alternatives)
    }

    fn alternative(&mut self, allowed: usize) -> Parsed<Vec<Term<'t>>> {
        let mut terms = Vec::new();
        if matches!(self.peek(), Some('.' | ';' | '|' | ')')) {
            return Ok(terms);
        }
        terms.push(self.term(allowed)?);
        while self.take(",") {
            self.spacing()?;
            terms.push(self.term(allowed)?);
        }
        Ok(terms)
    }

    fn term(&mut self, allowed: usize) -> Parsed<Term<'t>> {
        let factor = self.factor(allowed)?;
        let term = if self.take("**") {
            self.spacing()?;
            return Ok(Term::StarSeparated(factor, self.factor(allowed)?));
        } else if self.take("++") {
            self.spacing()?;
            return Ok(Term::PlusSeparated(factor, self.factor(allowed)?));
        } else if self.take("*") {
            Term::Star(factor)
        } else if self.take("+") {
            Term::Plus(factor)
        } else if self.take("?") {
            Term::Option(factor)
        } else {
            return Ok(Term::Once(factor));
        };
        self.spacing()?;
        Ok(term)
    }

    fn factor(&mut self, allowed: usize) -> Parsed<Factor<'t>> {
        if self.take("(") {
            let allowed = allowed.checked_sub(1).ok_or(NotIxml)?;
            self.spacing()?;
            let alternatives = self.alternatives(allowed)?;
            self.expect(")")?;
            self.spacing()?;
            return Ok(Factor::Bracket(alternatives));
        }
        if self.take("+") {
            self.spacing()?;
            let text = self.text()?.ok_or(NotIxml)?;
            self.spacing()?;
            return Ok(Factor::Insertion(text));
        }
        let mark = self.peek().and_then(mark);
        if mark.is_some() {
            self.next()?;
            self.spacing()?;
        }
        if self.peek().is_some_and(is_name_start) {
            let name = self.nonterminal_name()?;
            return Ok(Factor::Nonterminal { mark, name });
        }
        self.terminal(mark)
    }

    /// A literal or a set, after its mark.
    fn terminal(&mut self, mark: Option<Mark>) -> Parsed<Factor<'t>> {
        if mark == Some(Mark::Attribute) {
            return Err(NotIxml);
        }
        if let Some(text) = self.text()? {
            self.spacing()?;
            return Ok(Factor::Literal { mark, text });
        }
        let excluded = self.take("~");
        if excluded {
            self.spacing()?;
        }
        let members = self.members()?;
        let set = Set { excluded, members };
        Ok(Factor::Set { mark, set })
    }

    /// A name in a rule's body, with the spacing after it.
    ///
    /// A run that ends in a full stop is a name and the rule's end if the end
    /// of the text or a new rule follows, and otherwise a whole name. A mark or
    /// a name start can follow a factor only as the start of a new rule.
    fn nonterminal_name(&mut self) -> Parsed<&'t str> {
        let before = self.rest;
        let run = self.name_run().ok_or(NotIxml)?;
        self.spacing()?;
        let rule_may_follow = match self.peek() {
            None => true,
            Some(character) => mark(character).is_some() || is_name_start(character),
        };
        match run.strip_suffix('.') {
            Some(name) if rule_may_follow => {
                self.rest = &before[name.len()..];
                Ok(name)
            }
            _ => Ok(run),
        }
    }

    /// The longest run of name characters.
    fn name_run(&mut self) -> Option<&'t str> {
        if !self.peek().is_some_and(is_name_start) {
            return None;
        }
        let rest = self.rest.trim_start_matches(is_name_follower);
        let (name, _) = self.rest.split_at(self.rest.len() - rest.len());
        self.rest = rest;
        Some(name)
    }

    /// A string or an encoded character, if one stands here.
    fn text(&mut self) -> Parsed<Option<Text>> {
        match self.peek() {
            Some('"' | '\'') => Ok(Some(Text::Quoted(self.string()?))),
            Some('#') => Ok(Some(Text::Encoded(self.hex()?))),
            _ => Ok(None),
        }
    }

    fn string(&mut self) -> Parsed<Vec<char>> {
        let quote = self.next()?;
        if !matches!(quote, '"' | '\'') {
            return Err(NotIxml);
        }
        let mut string = Vec::new();
        loop {
            let character = self.next()?;
            if character == quote && self.peek() != Some(quote) {
                break;
            }
            if character == quote {
                self.next()?;
            } else if category::is_control(character) {
                return Err(NotIxml);
            }
            string.push(character);
        }
        if string.is_empty() {
            return Err(NotIxml);
        }
        Ok(string)
    }

    fn hex(&mut self) -> Parsed<Hex> {
        let mut hex = Hex(0, self.left());
        self.expect("#")?;
        let digits = self.rest;
        while let Some(digit) = self.peek().and_then(|digit| digit.to_digit(16)) {
            hex = hex.append(digit);
            self.next()?;
        }
        if digits.len() == self.rest.len() {
            return Err(NotIxml);
        }
        Ok(hex)
    }

    /// The bracketed members of a set, with the spacing after it.
    fn members(&mut self) -> Parsed<Vec<Member<'t>>> {
        self.expect("[")?;
        self.spacing()?;
        let mut members = Vec::new();
        if self.peek() != Some(']') {
            members.push(self.member()?);
            while self.take_either([";", "|"]) {
                self.spacing()?;
                members.push(self.member()?);
            }
        }
        self.expect("]")?;
        self.spacing()?;
        Ok(members)
    }

    /// A member of a set, with the spacing after it.
    fn member(&mut self) -> Parsed<Member<'t>> {
        let left = self.left();
        let Some(text) = self.text()? else {
            return self.class();
        };
        self.spacing()?;
        if !self.take("-") {
            return Ok(Member::Text(text));
        }
        self.spacing()?;
        let to = self.text()?.ok_or(NotIxml)?;
        self.spacing()?;
        Ok(Member::Range(bound(text)?, bound(to)?, left))
    }

    fn class(&mut self) -> Parsed<Member<'t>> {
        let text = self.rest;
        if !self.next()?.is_ascii_uppercase() {
            return Err(NotIxml);
        }
        if self
            .peek()
            .is_some_and(|letter| letter.is_ascii_alphabetic())
        {
            self.next()?;
        }
        let (code, _) = text.split_at(text.len() - self.rest.len());
        self.spacing()?;
        Ok(Member::Class(code))
    }
}

/// A range's end is an encoded character or a string of one character.
fn bound(text: Text) -> Parsed<Bound> {
    match text {
        Text::Encoded(hex) => Ok(Bound::Encoded(hex)),
        Text::Quoted(string) => match string[..] {
            [character] => Ok(Bound::Character(character)),
            _ => Err(NotIxml),
        },
    }
}
