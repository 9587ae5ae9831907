//! A text read as a case, or all its mistakes. docs/TEXT.md has the grammar.

use super::hints;
use super::operands::{digits, low, number, register, short_step, shown};
use super::registers::Registers;
use super::sharing::Sharing;
use super::statements::{
    instruction_of, known_words, step_of, Operand, Written, INSTRUCTIONS, STEPS,
};
use super::words::{self, Line, Word};
use crate::case::{Case, Instruction, Step};
use crate::messages::{Expected, Mistake, What};
use crate::sizes;
use std::collections::{BTreeMap, HashMap};

/// So many names are kept of a text.
const MOST_NAMES: usize = 64;

/// Where an instruction or a step belongs; behind a mistaken line it is looked at and dropped.
#[derive(Clone, Copy, PartialEq)]
enum Section {
    Outside,
    Thread,
    Run,
    Dropped,
}

struct Parser {
    mistakes: Vec<Mistake>,
    section: Section,
    names: Vec<String>,
    sharing: Sharing,
    first: BTreeMap<usize, u32>,
    threads: Vec<Vec<Instruction>>,
    /// Those that the last thread has set.
    registers: Registers,
    wants: BTreeMap<usize, u32>,
    /// The count and its place.
    passed: BTreeMap<usize, (u32, usize, usize)>,
    run: Vec<Written>,
    /// The threads that passed counts and steps name, as written, with their places: a thread may come later.
    named: Vec<(u32, String, usize, usize)>,
    /// The lines that steps name by number, likewise.
    numbered: Vec<(u8, String, usize, usize)>,
    /// The line of each statement that may be there only once, by its first word and number.
    seen: HashMap<(&'static str, usize), usize>,
    /// Whether some line cannot be read: what is missing may stand there.
    has_unread: bool,
}

pub fn parse(bytes: &[u8]) -> Result<Case, Vec<Mistake>> {
    let (lines, mistakes) = words::lines(bytes);
    let mut parser = Parser::new(mistakes);
    for line in &lines {
        if let Some(word) = line.words.first() {
            parser.statement(line, word);
        }
    }
    let end = lines.iter().rev().find(|line| !line.words.is_empty());
    parser.finish(end.map_or((1, 1), |line| (line.number, line.end)));
    parser
        .mistakes
        .sort_by_key(|mistake| (mistake.line, mistake.column));
    match parser.mistakes.is_empty() {
        true => Ok(parser.case()),
        false => Err(parser.mistakes),
    }
}

impl Parser {
    fn new(mistakes: Vec<Mistake>) -> Parser {
        Parser {
            has_unread: !mistakes.is_empty(),
            mistakes,
            section: Section::Outside,
            names: Vec::new(),
            sharing: Sharing::default(),
            first: BTreeMap::new(),
            threads: Vec::new(),
            registers: Registers::default(),
            wants: BTreeMap::new(),
            passed: BTreeMap::new(),
            run: Vec::new(),
            named: Vec::new(),
            numbered: Vec::new(),
            seen: HashMap::new(),
        }
    }

    fn wrong(&mut self, line: usize, column: usize, what: What) {
        self.mistakes.push(Mistake { line, column, what });
    }

    /// Something is not where it must be; a line that cannot be read may have it.
    fn absent(&mut self, line: usize, column: usize, what: What) {
        if !self.has_unread {
            self.wrong(line, column, what);
        }
    }

    fn statement(&mut self, line: &Line, word: &Word) {
        if known_words().any(|known| known == word.text) {
            self.need_locations(line, word);
        }
        let is = |(name, _): &&(&str, _)| *name == word.text;
        match word.text {
            "locations" => self.locations(line),
            "line" => self.share(line),
            "first" => self.content(line, "first"),
            "want" => self.content(line, "want"),
            "thread" => self.thread(line),
            "passed" => self.passed(line),
            "run" => self.start_run(line),
            _ => {
                if let Some((name, kinds)) = INSTRUCTIONS.iter().find(is) {
                    self.instruction(line, name, kinds);
                } else if let Some((name, kinds)) = STEPS.iter().find(is) {
                    self.step(line, name, kinds);
                } else {
                    self.short_step(line, word);
                }
            }
        }
    }

    /// The first statement must be that of the locations; told once.
    fn need_locations(&mut self, line: &Line, word: &Word) {
        if word.text != "locations" && !self.seen.contains_key(&("locations", 0)) {
            self.absent(line.number, word.column, What::NoLocations);
            self.seen.insert(("locations", 0), line.number);
        }
    }

    /// Whether this statement is here for the first time; else it is a mistake.
    fn once(&mut self, line: &Line, word: &'static str, number: usize, of: Option<&str>) -> bool {
        let before = *self.seen.entry((word, number)).or_insert(line.number);
        if before == line.number {
            return true;
        }
        let what = match of {
            Some(of) => What::AgainOf(word, of.to_string(), before),
            None => What::Again(word, before),
        };
        self.wrong(line.number, line.words[0].column, what);
        false
    }

    fn locations(&mut self, line: &Line) {
        self.section = Section::Outside;
        if !self.names.is_empty() {
            self.once(line, "locations", 0, None);
            return;
        }
        self.seen.insert(("locations", 0), line.number);
        if line.words.len() == 1 {
            self.wrong(line.number, line.end, What::Missing(Expected::Name));
        }
        // some that are too many are kept, so that their use is no second mistake
        for (i, word) in line.words.iter().skip(1).take(MOST_NAMES).enumerate() {
            if let Some(what) = self.bad_name(word.text, i) {
                self.wrong(line.number, word.column, what);
            }
            self.names.push(word.text.to_string());
        }
    }

    /// A `line` statement. Without any names that is the one mistake, told already.
    fn share(&mut self, line: &Line) {
        self.section = Section::Outside;
        self.sharing.is_given = true;
        let told = self.mistakes.len();
        if line.words.len() == 1 {
            self.wrong(line.number, line.end, What::Missing(Expected::Location));
        }
        let most = if self.names.is_empty() { 0 } else { MOST_NAMES };
        for word in line.words.iter().skip(1).take(most) {
            let at = self.location(word.text);
            let put = at.and_then(|at| self.sharing.put(at as usize, word.text, line.number));
            if let Err(what) = put {
                self.wrong(line.number, word.column, what);
            }
        }
        self.sharing.is_mistaken |= self.mistakes.len() > told;
    }

    fn bad_name(&self, name: &str, place: usize) -> Option<What> {
        let starts = name.starts_with(|c: char| c.is_ascii_alphabetic() || c == '_');
        let goes_on = |c: char| c.is_ascii_alphanumeric() || "_-.".contains(c);
        if !starts || !name.chars().all(goes_on) {
            return Some(What::Expected(Expected::Name, shown(name)));
        }
        if register(name).is_some() {
            return Some(What::RegisterName(shown(name)));
        }
        if name.len() > 24 {
            return Some(What::TooLong(shown(name)));
        }
        if self.names.iter().any(|other| other == name) {
            return Some(What::NamedTwice(shown(name)));
        }
        (place == sizes::LOCATIONS).then_some(What::MostLocations)
    }

    /// A first content or a want.
    fn content(&mut self, line: &Line, word: &'static str) {
        self.section = Section::Outside;
        let Some(found) = self.operands(line, &[Expected::Location, Expected::Number]) else {
            return;
        };
        let (at, value) = (found[0].value as usize, found[1].value);
        // without names no two locations are told apart
        if self.names.is_empty() || !self.once(line, word, at, Some(line.words[1].text)) {
            return;
        }
        if word == "want" {
            self.wants.insert(at, value);
        } else if value == 0 {
            self.wrong(line.number, found[1].column, What::FirstZero);
        } else {
            self.first.insert(at, value);
        }
    }

    fn thread(&mut self, line: &Line) {
        self.section = Section::Dropped;
        let Some(found) = self.operands(line, &[Expected::Thread]) else {
            return;
        };
        let (thread, next) = (found[0].value as usize, self.threads.len());
        if thread < next {
            self.once(line, "thread", thread, Some(line.words[1].text));
        } else if next == sizes::THREADS {
            self.wrong(line.number, found[0].column, What::MostThreads);
        } else if thread > next {
            self.absent(line.number, found[0].column, What::NextThread(next));
        } else {
            self.seen.insert(("thread", thread), line.number);
            self.threads.push(Vec::new());
            self.registers = Registers::default();
            self.section = Section::Thread;
        }
    }

    fn passed(&mut self, line: &Line) {
        self.section = Section::Outside;
        let Some(found) = self.operands(line, &[Expected::Thread, Expected::Count]) else {
            return;
        };
        let (thread, count) = (found[0].value as usize, found[1].value);
        if !self.once(line, "passed", thread, Some(line.words[1].text)) {
            return;
        }
        self.name_thread(line, &found[0], line.words[1].text);
        if count == 0 {
            self.wrong(line.number, found[1].column, What::PassedZero);
        } else {
            let place = (count, line.number, found[1].column);
            self.passed.insert(thread, place);
        }
    }

    fn name_thread(&mut self, line: &Line, thread: &Operand, text: &str) {
        let text = shown(text);
        self.named
            .push((thread.value, text, line.number, thread.column));
    }

    fn start_run(&mut self, line: &Line) {
        self.section = Section::Dropped;
        if self.operands(line, &[]).is_some() && self.once(line, "run", 0, None) {
            self.section = Section::Run;
        }
    }

    /// Whether the line stands where it belongs; the first of several that do not is a mistake.
    fn belongs(&mut self, line: &Line, section: Section, word: &'static str) -> bool {
        if self.section != section && self.section != Section::Dropped {
            self.absent(line.number, line.words[0].column, What::Outside(word));
            self.section = Section::Dropped;
        }
        self.section == section
    }

    fn instruction(&mut self, line: &Line, name: &str, kinds: &[Expected]) {
        let belongs = self.belongs(line, Section::Thread, "thread");
        let Some(found) = self.operands(line, kinds) else {
            self.registers.doubt();
            return;
        };
        let thread = self.threads.len().saturating_sub(1);
        let Some(code) = self.threads.last_mut().filter(|_| belongs) else {
            return;
        };
        let instruction = instruction_of(name, &found);
        let has_room = code.len() < sizes::INSTRUCTIONS;
        if code.len() <= sizes::INSTRUCTIONS {
            code.push(instruction);
        }
        if code.len() == sizes::INSTRUCTIONS + 1 {
            code.push(Instruction::Sfence);
            let what = What::MostInstructions(thread);
            self.wrong(line.number, line.words[0].column, what);
        }
        if let (true, Some(what)) = (has_room, self.registers.pass(&instruction, thread)) {
            self.absent(line.number, found[1].column, what);
        }
    }

    fn step(&mut self, line: &Line, name: &str, kinds: &[Expected]) {
        let belongs = self.belongs(line, Section::Run, "run");
        let Some(found) = self.operands(line, kinds) else {
            return;
        };
        if name != "persist" {
            self.name_thread(line, &found[0], line.words[1].text);
        }
        self.take_step(line, step_of(name, &found), belongs);
    }

    /// A step as the programs print it, or nothing that is known.
    fn short_step(&mut self, line: &Line, word: &Word) {
        let Some(short) = short_step(word.text) else {
            return self.unknown(line, word);
        };
        let belongs = self.belongs(line, Section::Run, "run");
        let behind = |text: &str| word.column + word.text.len() - text.len();
        if let Some(text) = short.thread {
            let thread = Operand {
                value: digits(text).unwrap_or(0),
                is_register: false,
                column: word.column + 1,
            };
            self.name_thread(line, &thread, text);
        }
        if let Some(what) = short.fault() {
            self.wrong(line.number, behind(short.last), what);
        }
        if let (Step::Persist { line: one }, false) = (short.step, self.names.is_empty()) {
            let column = behind(short.last);
            self.numbered
                .push((one, shown(short.last), line.number, column));
        }
        if self.operands(line, &[]).is_some() {
            self.take_step(line, Written::Step(short.step), belongs);
        }
    }

    fn unknown(&mut self, line: &Line, word: &Word) {
        self.registers.doubt();
        let known: Vec<&str> = known_words().collect();
        let hint = hints::statement(word.text, &known);
        if hint.contains("'locations'") {
            self.seen.entry(("locations", 0)).or_insert(line.number);
        }
        let what = What::Unknown(shown(word.text), hint);
        self.wrong(line.number, word.column, what);
    }

    fn take_step(&mut self, line: &Line, step: Written, belongs: bool) {
        if belongs && self.run.len() <= sizes::STEPS {
            self.run.push(step);
            if self.run.len() == sizes::STEPS + 1 {
                self.wrong(line.number, line.words[0].column, What::MostSteps);
            }
        }
    }

    /// The words behind the first, all understood; each that is not, and what is missing or too much, is a mistake.
    fn operands(&mut self, line: &Line, kinds: &[Expected]) -> Option<Vec<Operand>> {
        let words = &line.words[1..];
        let mut found = Vec::new();
        for (word, kind) in words.iter().zip(kinds) {
            match self.operand(word, *kind) {
                Ok(operand) => found.push(operand),
                Err(what) => self.wrong(line.number, word.column, what),
            }
        }
        if let Some(missing) = kinds.get(words.len()) {
            self.wrong(line.number, line.end, What::Missing(*missing));
        }
        if let Some(extra) = words.get(kinds.len()) {
            self.wrong(line.number, extra.column, What::Extra(shown(extra.text)));
        }
        (found.len() == kinds.len() && words.len() == kinds.len()).then_some(found)
    }

    fn operand(&self, word: &Word, kind: Expected) -> Result<Operand, What> {
        let expected = || What::Expected(kind, shown(word.text));
        let mut is_register = false;
        let value = match kind {
            Expected::Location => self.location(word.text)?,
            Expected::Register => register(word.text).ok_or_else(expected)?,
            Expected::NumberOrRegister => match register(word.text) {
                Some(number) => {
                    is_register = true;
                    number
                }
                None => number(word.text).ok_or_else(expected)??,
            },
            Expected::Number => number(word.text).ok_or_else(expected)??,
            _ => digits(word.text).ok_or_else(expected)?,
        };
        if kind == Expected::Position && value as usize >= sizes::POSITIONS {
            return Err(What::MostPosition);
        }
        Ok(Operand {
            value,
            is_register,
            column: word.column,
        })
    }

    /// A location's number. Without any names that is the one mistake, told already.
    fn location(&self, name: &str) -> Result<u32, What> {
        if self.names.is_empty() {
            return Ok(0);
        }
        match self.names.iter().position(|other| other == name) {
            Some(number) => Ok(number as u32),
            None => {
                let hint = hints::spelling(name, self.names.iter().map(String::as_str));
                Err(What::Misnamed(shown(name), hint))
            }
        }
    }

    /// What can be told only when all is read; the place is the end of the last statement.
    fn finish(&mut self, end: (usize, usize)) {
        self.finish_numbers();
        if !self.seen.contains_key(&("locations", 0)) {
            self.absent(end.0, end.1, What::NoLocations);
        } else if self.threads.is_empty() && !self.mistakes.iter().any(is_of_threads) {
            self.absent(end.0, end.1, What::NoThread);
        }
        if self.threads.is_empty() {
            return;
        }
        let last = self.threads.len() - 1;
        for (thread, text, line, column) in std::mem::take(&mut self.named) {
            if thread as usize > last {
                self.absent(line, column, What::NoSuchThread(text, last));
            }
        }
        self.finish_counts();
    }

    /// The lines that are named by number. Where it is not known which there are, no more than there are locations.
    fn finish_numbers(&mut self) {
        let locations = self.names.len();
        let is_known = self.sharing.is_given && !self.sharing.is_mistaken && !self.has_unread;
        let last = match self.sharing.lines(locations).iter().max() {
            Some(line) if is_known => *line as usize,
            _ => locations.saturating_sub(1),
        };
        for (number, text, line, column) in std::mem::take(&mut self.numbered) {
            if number as usize > last {
                let what = match is_known {
                    true => What::NoSuchLine(text, last),
                    false => What::NoSuchNumber(text, last),
                };
                self.wrong(line, column, what);
            }
        }
    }

    fn finish_counts(&mut self) {
        for (thread, (count, line, column)) in self.passed.clone() {
            let has = self.threads.get(thread).map_or(usize::MAX, Vec::len);
            if has < count as usize {
                self.absent(line, column, What::PassedMore(thread, has));
            }
        }
    }

    fn case(self) -> Case {
        let locations = self.names.len();
        let passed = |thread| self.passed.get(&thread).map_or(0, |found| low(found.0));
        let lines = self.sharing.lines(locations);
        Case {
            version: if self.sharing.is_given { 2 } else { 1 },
            first: (0..locations)
                .map(|at| self.first.get(&at).copied().unwrap_or(0))
                .collect(),
            wants: (0..locations)
                .map(|at| self.wants.get(&at).copied())
                .collect(),
            passed: (0..self.threads.len()).map(passed).collect(),
            run: self.run.iter().map(|one| one.step(&lines)).collect(),
            lines,
            names: self.names,
            threads: self.threads,
        }
    }
}

fn is_of_threads(mistake: &Mistake) -> bool {
    matches!(
        mistake.what,
        What::NextThread(_) | What::MostThreads | What::Outside("thread")
    )
}
