//! Cases of what a caller lends: declarations, slices, lengths and steps, laid
//! out as lines of text.

use crate::decl::{Declarations, Variable};
use crate::file::{field, number, sideless_step, variable, words};
use crate::run::{run, Answer, STEP_WORDS};
use crate::step::Step;
use crate::words::WORDS;

/// The most words of a case's slice: more than a work slice has, so that one
/// too long can be lent.
pub const LARGEST: usize = 5_000;

/// The most words of lent steps: more than 1,000 steps have.
pub const MOST_STEP_WORDS: usize = 9_000;

/// A slice with a term in it.
#[derive(Clone, PartialEq, Eq, Debug)]
pub struct Lent {
    /// The words that the slice begins with.
    pub words: Vec<u16>,
    /// How many words the slice has.
    pub size: usize,
    /// The length that is told.
    pub length: usize,
}

impl Lent {
    /// A work slice with these words, all of them told.
    pub fn new(words: Vec<u16>) -> Self {
        Lent { length: words.len(), words, size: WORDS }
    }

    /// Gives the slice other words, all of them told.
    pub fn hold(&mut self, words: Vec<u16>) {
        self.length = words.len();
        self.words = words;
    }

    fn line(&mut self, key: &[u8], value: &[u8]) -> Option<()> {
        match key {
            b"term" => self.hold(words(value).filter(|words| words.len() <= LARGEST)?),
            b"length" => self.length = number(value)?,
            b"slice" => self.size = number(value).filter(|&size| size <= LARGEST)?,
            _ => return None,
        }
        Some(())
    }

    /// Puts the words to the front of a room, and lends so much of the room.
    fn put<'r>(&self, room: &'r mut [u16]) -> &'r mut [u16] {
        room[..self.words.len()].copy_from_slice(&self.words);
        &mut room[..self.size]
    }
}

/// A typing, step or preview case: declarations, a slice, perhaps a step.
#[derive(Clone, PartialEq, Eq, Debug)]
pub struct Case {
    pub declared: Declarations,
    pub lent: Lent,
    /// The word behind the slice's first ones, up to its end.
    pub behind: u16,
    pub step: Option<Step>,
}

impl Case {
    /// A case of these words, with zeros behind them and no step.
    pub fn new(declared: Declarations, words: Vec<u16>) -> Self {
        Case { declared, lent: Lent::new(words), behind: 0, step: None }
    }

    /// The slice that is lent. Words that it has no room for are dropped.
    pub fn slice(&self) -> Vec<u16> {
        let mut slice = self.lent.words.clone();
        slice.resize(self.lent.size, self.behind);
        slice
    }

    pub fn read(input: &[u8]) -> Result<Case, String> {
        let mut case = Case::new(Declarations::default(), Vec::new());
        each_line(input, |key, value| case.line(key, value))?;
        Ok(case)
    }

    /// A case that has a step, and the step.
    pub fn read_with_step(input: &[u8]) -> Result<(Case, Step), String> {
        let case = Case::read(input)?;
        let step = case.step.ok_or("a step line is wanted")?;
        Ok((case, step))
    }

    fn line(&mut self, key: &[u8], value: &[u8]) -> Option<()> {
        match key {
            b"behind" => {
                let [word] = words(value)?[..] else {
                    return None;
                };
                self.behind = word;
            }
            b"step" => self.step = Some(sideless_step(value)?),
            b"term" | b"length" | b"slice" => self.lent.line(key, value)?,
            _ => declare(&mut self.declared, key, value)?,
        }
        Some(())
    }
}

/// A case of the run: declarations, two slices, steps and how many of them.
#[derive(Clone, PartialEq, Eq, Debug)]
pub struct RunCase {
    pub declared: Declarations,
    pub left: Lent,
    pub right: Lent,
    /// The words of the steps, as they are lent.
    pub steps: Vec<u16>,
    /// The count that is told.
    pub count: usize,
}

/// Two rooms of words, of which a run case lends the fronts. They are kept from
/// case to case: behind a case's words stands what the case before left there.
#[derive(Clone, Debug)]
pub struct Rooms {
    left: Vec<u16>,
    right: Vec<u16>,
}

impl Default for Rooms {
    fn default() -> Self {
        Rooms { left: vec![0; LARGEST], right: vec![0; LARGEST] }
    }
}

impl RunCase {
    /// A case of these terms, with no steps.
    pub fn new(declared: Declarations, left: Vec<u16>, right: Vec<u16>) -> Self {
        let (left, right) = (Lent::new(left), Lent::new(right));
        RunCase { declared, left, right, steps: Vec::new(), count: 0 }
    }

    /// Adds a step; the words that are not given are zeros.
    pub fn push_step(&mut self, words: &[u16]) {
        self.steps.extend(words);
        self.steps.resize(self.steps.len().next_multiple_of(STEP_WORDS), 0);
        self.count = self.steps.len() / STEP_WORDS;
    }

    pub fn read(input: &[u8]) -> Result<RunCase, String> {
        let mut case = RunCase::new(Declarations::default(), Vec::new(), Vec::new());
        each_line(input, |key, value| case.line(key, value))?;
        Ok(case)
    }

    fn line(&mut self, key: &[u8], value: &[u8]) -> Option<()> {
        if let Some(key) = key.strip_prefix(b"left-") {
            return self.left.line(key, value);
        }
        if let Some(key) = key.strip_prefix(b"right-") {
            return self.right.line(key, value);
        }
        match key {
            b"step" => self.push_step(&step_words(value)?),
            b"lent" => {
                let lent = number(value).filter(|&lent| lent <= MOST_STEP_WORDS)?;
                self.steps.resize(lent, 0);
            }
            b"count" => self.count = number(value)?,
            _ => declare(&mut self.declared, key, value)?,
        }
        Some(())
    }

    /// The two slices that are lent.
    pub fn slices<'r>(&self, rooms: &'r mut Rooms) -> (&'r mut [u16], &'r mut [u16]) {
        (self.left.put(&mut rooms.left), self.right.put(&mut rooms.right))
    }

    /// Runs the steps: the answer, and the slices as it leaves them.
    pub fn run<'r>(&self, rooms: &'r mut Rooms) -> (Answer, &'r [u16], &'r [u16]) {
        let (left, right) = self.slices(rooms);
        let (n, m) = (self.left.length, self.right.length);
        let answer = run(&self.declared, left, n, right, m, &self.steps, self.count);
        (answer, left, right)
    }
}

/// The words of a step: all that are looked at, or more.
fn step_words(value: &[u8]) -> Option<Vec<u16>> {
    let words: Vec<u16> = value.split(|&byte| byte == b' ').map(field).collect::<Option<_>>()?;
    (5..=STEP_WORDS).contains(&words.len()).then_some(words)
}

/// Hands on the key and the value of each line.
fn each_line(input: &[u8], mut take: impl FnMut(&[u8], &[u8]) -> Option<()>) -> Result<(), String> {
    let lines = input.strip_suffix(b"\n").ok_or("the last line is unfinished")?;
    for (k, line) in lines.split(|&byte| byte == b'\n').enumerate() {
        line.iter()
            .position(|&byte| byte == b'=')
            .and_then(|equals| take(&line[..equals], &line[equals + 1..]))
            .ok_or_else(|| format!("line {} is not of the form", k + 1))?;
    }
    Ok(())
}

fn declare(declared: &mut Declarations, key: &[u8], value: &[u8]) -> Option<()> {
    match key {
        b"types" => declared.types = number(value)?,
        b"basis" => declared.bases.push(words(value)?),
        b"var" => declared.variables.push(variable(value)?),
        b"kind" => declared.variables.push(lent_variable(value)?),
        _ => return None,
    }
    Some(())
}

/// A variable by the word of its kind, which need be none that a var line
/// gives, and the tokens of its indices.
fn lent_variable(value: &[u8]) -> Option<Variable> {
    let mut pieces = value.splitn(2, |&byte| byte == b' ');
    let kind = field(pieces.next()?)?;
    let words = pieces.next().map_or(Some(Vec::new()), words)?;
    Some(Variable { kind, words })
}
