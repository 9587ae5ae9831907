//! A text that takes the freedoms of the grammar at random.

use super::mistakes::Place;
use super::names;
use super::statements::*;
use crate::judge::case::{Case, MOST_LOCATIONS};
use crate::streams::random::Random;

/// What comments are made of: any character but the end of a line.
const REMARKS: [&str; 16] = [
    " the limit, then the valid word",
    " store x 1",
    "locations a b c",
    " want y 0",
    "#",
    " # and on ##",
    " ",
    "\t",
    "",
    " Größe, naïveté",
    " 猫が好き 🐈",
    " 'quoted' \"twice\" \\n",
    "\u{a0}\u{feff}\u{200b}",
    "\u{85}\u{2028}\u{2029}",
    " r0 r1 0x 0xFFFFFFFFF -1 4294967296",
    " e\u{301} \u{10ffff}",
];

/// Characters that may stand in a comment too, but not where a file of records has its kind. None ends
/// with a carriage return: that would be the line's.
const CONTROLS: [&str; 6] = ["\0", "\u{1}", "\u{1b}[0m", "\u{7f}", "\r.", "\u{c}\u{b}"];

/// Where records have the kind of the first one; a text that had it there would be taken for records.
const KIND_ENDS: usize = 4;

/// How often a freedom is taken in this text, in eighths.
struct Habits {
    order: usize,
    blanks: usize,
    comments: usize,
    lines: usize,
    returns: usize,
    hexadecimal: usize,
    zeros: usize,
    letters: usize,
    unsaid: usize,
    beside: usize,
    spelling: usize,
}

impl Habits {
    fn draw(random: &mut Random) -> Habits {
        let mut often = || random.pick(&[0, 1, 4, 8]);
        Habits {
            order: often(),
            blanks: often(),
            comments: often(),
            lines: often(),
            returns: often(),
            hexadecimal: often(),
            zeros: often(),
            letters: often(),
            // Seven eighths at most: it is asked for until it is not taken.
            unsaid: often().min(7),
            beside: often(),
            spelling: often(),
        }
    }
}

struct Pen<'a> {
    random: &'a mut Random,
    habits: Habits,
    names: Vec<String>,
    out: String,
}

pub fn text(random: &mut Random, case: &Case) -> String {
    let mut pen = Pen::new(random, case);
    pen.line(&locations(case));
    for line in pen.ordered(case).concat() {
        pen.line(&line);
    }
    pen.end()
}

/// The text with a statement more, and the line where that stands, from 1.
pub fn mistaken(
    random: &mut Random,
    case: &Case,
    place: Place,
    statement: &[Word],
) -> (String, usize) {
    let mut pen = Pen::new(random, case);
    let mut all = [vec![locations(case)], pen.ordered(case).concat()].concat();
    let at = match place {
        Place::BeforeLocations => 0,
        Place::BehindLocations => 1,
        Place::Last => all.len(),
    };
    all.insert(at, statement.to_vec());
    let mut line = 0;
    for (number, words) in all.iter().enumerate() {
        pen.line(words);
        if number == at {
            line = pen.out.matches('\n').count();
        }
    }
    (pen.end(), line)
}

impl<'a> Pen<'a> {
    fn new(random: &'a mut Random, case: &Case) -> Pen<'a> {
        Pen {
            habits: Habits::draw(random),
            names: names::draw(random, case.locations),
            random,
            out: String::new(),
        }
    }

    fn end(mut self) -> String {
        self.fill();
        self.leave_open();
        self.out
    }

    fn taken(&mut self, eighths: usize) -> bool {
        self.random.below(8) < eighths
    }

    /// Threads in their order; every other line, and the run, anywhere between them.
    fn ordered(&mut self, case: &Case) -> Vec<Vec<Line>> {
        let single = |lines: Vec<Line>| lines.into_iter().map(|line| vec![line]);
        let behind = single([wants(case), passed(case)].concat()).chain(self.run(case));
        let mut lists = threads(case);
        let before = single([self.lines(case), firsts(case)].concat());
        if !self.taken(self.habits.order) {
            return before.chain(lists).chain(behind).collect();
        }
        for list in before.chain(behind) {
            let at = self.random.below(lists.len() + 1);
            lists.insert(at, list);
        }
        lists
    }

    /// Lines with one location alone may go without, but not all of them; names in any order.
    fn lines(&mut self, case: &Case) -> Vec<Line> {
        let mut all = lines(case);
        while all.len() > 1 && self.taken(self.habits.unsaid) {
            let at = self.random.below(all.len());
            if all[at].len() == 2 {
                all.remove(at);
            }
        }
        for line in &mut all {
            for at in 2..line.len() {
                if self.taken(self.habits.order) {
                    line.swap(at, 1 + self.random.below(at));
                }
            }
        }
        all
    }

    /// Which location of its line a persist names.
    fn neighbour(&mut self) -> usize {
        if self.taken(self.habits.beside) {
            self.random.below(MOST_LOCATIONS)
        } else {
            0
        }
    }

    /// The run as one list; where it has no steps, perhaps the line `run` alone.
    fn run(&mut self, case: &Case) -> Option<Vec<Line>> {
        if steps(case).is_empty() && !self.random.one_in(4) {
            return None;
        }
        let mut list = vec![run()];
        for step in steps(case) {
            let letters = self.taken(self.habits.letters);
            list.push(if letters {
                in_letters(step)
            } else {
                let by = self.neighbour();
                in_words(case, step, by)
            });
        }
        Some(list)
    }

    fn line(&mut self, line: &[Word]) {
        self.fill();
        let mut least = 0;
        for word in line {
            self.blanks(least);
            let word = self.word(word);
            self.out += &word;
            least = 1;
        }
        self.end_line();
    }

    /// Lines that say nothing.
    fn fill(&mut self) {
        while self.random.below(16) < self.habits.lines {
            self.end_line();
        }
    }

    fn end_line(&mut self) {
        self.blanks(0);
        if self.taken(self.habits.comments) {
            self.comment();
        }
        let returns = self.taken(self.habits.returns);
        self.out += if returns { "\r\n" } else { "\n" };
    }

    /// At least so many.
    fn blanks(&mut self, least: usize) {
        let more = if self.taken(self.habits.blanks) {
            self.random.below(4)
        } else {
            0
        };
        for _ in 0..least + more {
            let tab = self.taken(self.habits.blanks / 2);
            self.out.push(if tab { '\t' } else { ' ' });
        }
    }

    fn comment(&mut self) {
        self.out.push('#');
        for _ in 0..self.random.below(4) {
            let control = self.out.len() >= KIND_ENDS && self.random.one_in(6);
            let from = if control { &CONTROLS[..] } else { &REMARKS };
            self.out += self.random.pick(from);
        }
    }

    /// Now and then the last line has no end.
    fn leave_open(&mut self) {
        if self.random.one_in(4) {
            self.out.pop();
            if self.out.ends_with('\r') {
                self.out.pop();
            }
        }
    }

    fn word(&mut self, word: &Word) -> String {
        match word {
            Word::Key(key) => key.to_string(),
            Word::Either(keys) => {
                let second = self.taken(self.habits.spelling);
                keys[usize::from(second)].to_string()
            }
            Word::Location(at) => self.names[usize::from(*at)].clone(),
            Word::Register(register) => format!("r{register}"),
            Word::Number(number) => self.number(*number),
            Word::Digits(number) => self.zeros() + &number.to_string(),
            Word::Joined(parts) => parts.iter().map(|part| self.word(part)).collect(),
        }
    }

    fn number(&mut self, number: u32) -> String {
        if !self.taken(self.habits.hexadecimal) {
            return self.zeros() + &number.to_string();
        }
        let capital = self.random.pick(&[0, 4, 8]);
        let digits = format!("{number:x}").chars().collect::<Vec<char>>();
        let digits = digits.into_iter().map(|digit| {
            let large = self.taken(capital);
            if large {
                digit.to_ascii_uppercase()
            } else {
                digit
            }
        });
        let digits: String = digits.collect();
        format!("0x{}{digits}", self.zeros())
    }

    fn zeros(&mut self) -> String {
        if !self.taken(self.habits.zeros) {
            return String::new();
        }
        "0".repeat(self.random.pick(&[1, 2, 3, 8, 30]))
    }
}
