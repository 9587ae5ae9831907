//! From files to answers: reads texts and records, has the proved programs judge and answer them, and gathers what there is to tell.

mod away;
pub mod frames;
pub mod programs;
mod records;

use crate::case::{Case, Step};
use crate::files::File;
use crate::messages::{Mistake, Trouble};
use crate::output;
use crate::story::search::Search;
use crate::story::{blocker, compares, lives, Answer, Refusal, Story};
use crate::text::parse;
use frames::{Asked, Judged, Verdict};
use programs::Programs;
use std::io::Read;

/// A text of more bytes is not looked at; records are decided by their first ones, far fewer.
const MOST_BYTES: u64 = 1 << 20;

/// A file that is a case, or may be one: of records the proved reader decides.
pub struct Given {
    pub file: String,
    pub bytes: Vec<u8>,
    /// The case that the text says, with its names; of records none yet.
    text: Option<Case>,
}

pub enum Unfit {
    Mistakes(Vec<Mistake>),
    Unread(Trouble),
}

/// What the programs said of a case.
#[derive(Clone, Debug, PartialEq, Eq)]
pub enum Outcome {
    /// The answer, and the run that reaches.
    Answer(Answer, Vec<Step>),
    Refused(Refusal),
}

impl Given {
    pub fn read(from: &File) -> Result<Given, Unfit> {
        let bytes = contents(from).map_err(Unfit::Unread)?;
        let file = from.shown();
        if records::is_records(&bytes) {
            return Ok(Given {
                file,
                bytes,
                text: None,
            });
        }
        if bytes.len() as u64 > MOST_BYTES {
            return Err(Unfit::Unread(Trouble::TextTooLong(file)));
        }
        let case = parse::parse(&bytes).map_err(Unfit::Mistakes)?;
        let bytes = records::bytes_of(&case);
        Ok(Given {
            file,
            bytes,
            text: Some(case),
        })
    }

    /// Only of a case that the proved reader has taken.
    pub fn case(&self) -> Case {
        self.text
            .clone()
            .unwrap_or_else(|| records::case_of(&self.bytes))
    }

    pub fn has_run(&self) -> bool {
        records::has_run(&self.bytes)
    }

    fn refused(&self, number: u32, offset: usize) -> Outcome {
        let is_lined = records::is_lined(&self.bytes, offset);
        Outcome::Refused(Refusal {
            number,
            offset,
            is_lined,
        })
    }
}

fn contents(from: &File) -> Result<Vec<u8>, Trouble> {
    let most = MOST_BYTES + 1;
    let mut bytes = Vec::new();
    let got = match from {
        File::Input => std::io::stdin().lock().take(most).read_to_end(&mut bytes),
        File::Named(name) => {
            std::fs::File::open(name).and_then(|open| open.take(most).read_to_end(&mut bytes))
        }
    };
    match got {
        Ok(_) => Ok(bytes),
        Err(error) => Err(Trouble::CannotRead(from.shown(), output::plain(&error))),
    }
}

/// What is done with each answer as it comes, by the place of its case.
type Each<'a> = dyn FnMut(usize, Outcome) -> Result<(), Trouble> + 'a;

/// Asks the question of each, in one stream, and hands on each answer as it comes.
pub fn ask(
    programs: &Programs,
    given: &[&Given],
    search: Search,
    each: &mut Each,
) -> Result<(), Trouble> {
    let frame = |one: &Given| frames::question(&one.bytes, search);
    let task = Task::of(frames::program(search), "asking", given, &frame);
    task.done(programs, &mut |i, line| {
        let outcome = match frames::asked(line, search)? {
            Asked::Answer(answer, run) => Outcome::Answer(answer, run),
            Asked::Refused { number, offset } => given[i].refused(number, offset),
        };
        each(i, outcome)
    })
}

/// Has the run of each judged, likewise.
pub fn judge(programs: &Programs, given: &[&Given], each: &mut Each) -> Result<(), Trouble> {
    let frame = |one: &Given| frames::judge(&one.bytes);
    let task = Task::of(frames::BATCH, "judging", given, &frame);
    task.done(programs, &mut |i, line| {
        let run = || given[i].case().run;
        let outcome = match frames::judged(line)?.verdict {
            Verdict::Legal(_) => Outcome::Answer(Answer::Legal, run()),
            Verdict::Illegal {
                index,
                rule,
                blocker,
            } => Outcome::Answer(
                Answer::Illegal {
                    index,
                    rule,
                    blocker,
                },
                run(),
            ),
            Verdict::Refused { number, offset } => given[i].refused(number, offset),
        };
        each(i, outcome)
    })
}

/// Frames for a program, and of each what is said where it takes long.
struct Task {
    program: &'static str,
    input: Vec<u8>,
    labels: Vec<String>,
}

impl Task {
    /// One frame for each case; `doing` is said of it.
    fn of(
        program: &'static str,
        doing: &str,
        given: &[&Given],
        frame: &dyn Fn(&Given) -> Vec<u8>,
    ) -> Task {
        let label = |one: &&Given| format!("{doing} {}", one.file);
        Task {
            program,
            input: given.iter().flat_map(|one| frame(one)).collect(),
            labels: given.iter().map(label).collect(),
        }
    }

    /// One answer for each frame, or the program gave none.
    fn done(
        self,
        programs: &Programs,
        each: &mut dyn FnMut(usize, &str) -> Result<(), Trouble>,
    ) -> Result<(), Trouble> {
        let (program, count) = (self.program, self.labels.len());
        let mut answered = 0;
        programs.lines(program, self.input, &self.labels, &mut |line| {
            answered += 1;
            match answered <= count {
                true => each(answered - 1, line),
                false => Err(frames::odd_line(program, line)),
            }
        })?;
        if answered < count {
            let how = format!("it ended after {answered} answers of {count}");
            return Err(Trouble::ProgramEnded(program.to_string(), how));
        }
        Ok(())
    }
}

/// The stories of answered cases: the proved judge is shown each run as far as it is legal, step by step, and hands out the states.
pub fn stories(
    programs: &Programs,
    answered: Vec<(&Given, Answer, Vec<Step>)>,
    search: Option<Search>,
) -> Result<Vec<Story>, Trouble> {
    let mut stories: Vec<Story> = answered.into_iter().map(|one| blank(one, search)).collect();
    let mut owners = Vec::new();
    let mut input = Vec::new();
    for (i, story) in stories.iter().enumerate() {
        for length in 0..=legal(story) {
            owners.push(i);
            input.extend(frames::judge(&records::with_run(
                &story.case,
                &story.run[..length],
            )));
        }
    }
    let task = Task {
        program: frames::BATCH,
        input,
        labels: owners.iter().map(|i| telling(&stories[*i])).collect(),
    };
    task.done(programs, &mut |at, line| {
        take_state(&mut stories[owners[at]], frames::judged(line)?, line)
    })?;
    // what is told of the entries must be what the judge's states say, or nothing is told
    let agrees =
        |story: &Story| lives::agree(story) && compares::agree(story) && blocker::agrees(story);
    if let Some(story) = stories.iter().find(|story| !agrees(story)) {
        return Err(Trouble::Astray(story.file.clone()));
    }
    away::find(programs, &mut stories)?;
    Ok(stories)
}

/// What is said while the judge is shown the run.
fn telling(story: &Story) -> String {
    format!("telling {}", story.file)
}

fn blank(answered: (&Given, Answer, Vec<Step>), search: Option<Search>) -> Story {
    let (given, answer, run) = answered;
    Story {
        file: given.file.clone(),
        case: given.case(),
        answer,
        search,
        full_length: 0,
        run,
        states: Vec::new(),
        away: Vec::new(),
    }
}

/// How many steps of the run are legal.
fn legal(story: &Story) -> usize {
    match story.answer {
        Answer::Illegal { index, .. } => index,
        _ => story.run.len(),
    }
}

fn take_state(story: &mut Story, judged: Judged, line: &str) -> Result<(), Trouble> {
    if judged.verdict != Verdict::Legal(story.states.len()) {
        return Err(frames::odd_line(frames::BATCH, line));
    }
    story.full_length = judged.full_length;
    story.states.push(judged.state(&story.case));
    Ok(())
}
