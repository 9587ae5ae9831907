//! The front door: readable cases in, the proved programs' answers out, in words and pictures. It decides nothing itself.
//!
//! Its rooms. A room uses those that are listed beside it, and so none that stands below it; what stands beside this file all may use.
//!
//! | Room | Uses | Knows |
//! |---|---|---|
//! | text | | the text form of docs/TEXT.md, both ways |
//! | story | | what there is to tell of a case: its answer, its run, the states, the life of each entry |
//! | desk | text, story | the way from files to answers and stories, by the proved programs |
//! | tell | text, story | an answer in words and as JSON |
//! | draw | text, story, tell | the picture of a run |
//! | page | text, story, tell, draw | the page that steps through a run |
//! | commands | text, story, desk, tell, draw, page | the command line, what it asks for, the exit statuses |

mod case;
mod commands;
mod desk;
mod draw;
mod files;
mod messages;
mod output;
mod page;
mod sizes;
mod story;
mod tell;
mod text;

use std::ffi::OsString;
use std::process::ExitCode;

fn main() -> ExitCode {
    let words: Vec<OsString> = std::env::args_os().skip(1).collect();
    ExitCode::from(commands::run(&words))
}
