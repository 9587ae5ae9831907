//! Texts: two laid out by hand, what a free text says, the freedoms told of a text, the folder.

use crate::judge::case::{Case, Instruction};
use crate::judge::machine::steps::{issue, persist, shift};
use crate::judge::reading::read;
use crate::streams::cases::generate::valid::ROW;
use crate::streams::layouts::Layout;
use crate::streams::machine::frame::Job;
use crate::streams::random::Random;
use crate::streams::tally::Counts;
use crate::streams::text::cases;
use crate::streams::text::counts::TextCounts;
use crate::streams::text::files;
use crate::streams::text::mistakes;
use crate::streams::text::written::Written;
use crate::tests::by_hand::{
    compare, exchange, flush, flush_opt, laid_out, load, store, MFENCE, SFENCE, X, Y,
};
use std::collections::BTreeMap;
use std::fs;
use std::io;

const OUTAGE: &str = "\
locations x y

thread 0
  store x 500
  store y 1

want x 0
want y 1
";

const EVERYTHING: &str = "\
locations x y z w a b c d

first y 4294967295
first d 7

thread 0
  store x 500
  load d r3
  store y r3
  xchg y r2 0
  clflush x
  clflushopt y
  sfence
  mfence

thread 1

thread 2
  load x r3
  cmpxchg d r3 4294967295
  store d 9

want x 0
want d 12
passed 0 8
passed 2 1

run
  issue 0
  move 0 7
  persist d
";

fn outage() -> Case {
    read(&ROW).case
}

/// Every statement; the last location and register, the highest word.
fn everything() -> Case {
    let first = [
        store(X, 500),
        load(7, 3),
        Instruction::new(2, Y, 3, 0),
        exchange(Y, 2, 0),
        flush(X),
        flush_opt(Y),
        SFENCE,
        MFENCE,
    ];
    let third = [load(X, 3), compare(7, 3, u32::MAX), store(7, 9)];
    let mut case = laid_out(&Layout::own(8), &[&first, &[], &third]);
    (case.first[1], case.first[7]) = (u32::MAX, 7);
    (case.wanted[0], case.wanted[7], case.want[7]) = (true, true, 12);
    (case.passed[0], case.passed[2]) = (8, 1);
    case.set_run(&[issue(0), shift(0, 7), persist(7)]);
    case
}

fn written(case: &Case) -> Written {
    Written::of(&mut Random::new(1), case)
}

fn some(seed: u64, count: u64) -> Vec<Written> {
    let mut all = Vec::new();
    let kept = cases::all(seed, count, &mut |part| {
        all.extend(part);
        Ok(())
    });
    assert!(kept.is_ok() && all.len() as u64 >= count);
    all
}

#[test]
fn the_one_text() {
    assert_eq!(written(&outage()).plain, OUTAGE);
    assert_eq!(written(&outage()).bytes, ROW);
    assert_eq!(written(&everything()).plain, EVERYTHING);
    assert_eq!(
        written(&Case::empty()).plain,
        "locations x\n\nthread 0\n".to_string()
    );
}

#[test]
fn a_seed_gives_the_same_cases() {
    let all = some(3, 700);
    assert_eq!(all, some(3, 700));
    assert_ne!(all, some(4, 700));
    let fewer = some(3, 300);
    assert_eq!(fewer[..], all[..fewer.len()]);
}

/// The line of each location, as the text has it: two are on one if some statement names both. Each
/// line is known by its first location.
fn lines_said(names: &[&str], statements: &[Vec<&str>]) -> Vec<usize> {
    let together = |one: &&str, other: &&str| {
        let mut lines = statements.iter().filter(|words| words[0] == "line");
        one == other || lines.any(|words| words[1..].contains(one) && words[1..].contains(other))
    };
    let first = |name: &&str| names.iter().position(|other| together(name, other));
    names.iter().filter_map(|name| first(name)).collect()
}

/// A statement in one way of writing it: steps in words, a compare by its first spelling, locations and
/// lines by the number of the first location, decimal numbers.
fn told_one_way(names: &[&str], lines: &[usize], words: &[&str]) -> String {
    let mut firsts = lines.to_vec();
    firsts.sort_unstable();
    firsts.dedup();
    let letters = words[0].split_at(1);
    let numbers = letters.1.replace('.', " ");
    let numbers: Vec<&str> = numbers.split(' ').collect();
    let number_of = |name: &str| names.iter().position(|other| *other == name);
    let words = match letters.0 {
        "I" => [&["issue"], &numbers[..]].concat(),
        "M" => [&["move"], &numbers[..]].concat(),
        "P" => vec!["persist", names[firsts[decimal(letters.1) as usize]]],
        _ if words[0] == "persist" => {
            let first = number_of(words[1]).map(|at| lines[at]);
            vec!["persist", first.map_or("", |first| names[first])]
        }
        _ if words[0] == "cas" => [&["cmpxchg"], &words[1..]].concat(),
        _ => words.to_vec(),
    };
    let behind = words[1..]
        .iter()
        .enumerate()
        .map(|(place, word)| match number_of(word) {
            Some(at) if place == 0 => format!("at {at}"),
            _ if word.starts_with('r') => word.to_string(),
            _ => decimal(word).to_string(),
        });
    [words[0].to_string()]
        .into_iter()
        .chain(behind)
        .collect::<Vec<String>>()
        .join(" ")
}

fn decimal(word: &str) -> u32 {
    let number = match word.strip_prefix("0x") {
        Some(digits) => u32::from_str_radix(digits, 16),
        None => word.parse(),
    };
    number.expect(word)
}

/// Each thread, the run and every other line, by its first words, with what belongs to it.
fn says(text: &str) -> BTreeMap<String, Vec<String>> {
    let heads = ["first", "thread", "want", "passed", "run"];
    let said = text
        .lines()
        .map(|line| line.split('#').next().unwrap_or(""));
    let lines = said.map(|said| said.split_whitespace().collect::<Vec<&str>>());
    let mut statements: Vec<Vec<&str>> = lines.filter(|words| !words.is_empty()).collect();
    let names = statements.remove(0).split_off(1);
    let lines = lines_said(&names, &statements);
    let all = statements.len();
    statements.retain(|words| words[0] != "line");
    let version = if statements.len() < all { 2 } else { 1 };
    let mut said = BTreeMap::from([(format!("version {version} {lines:?}"), Vec::new())]);
    let mut head = String::new();
    for words in statements {
        let line = told_one_way(&names, &lines, &words);
        if heads.contains(&words[0]) {
            head = line;
            assert_eq!(said.insert(head.clone(), Vec::new()), None);
        } else {
            said.entry(head.clone()).or_default().push(line);
        }
    }
    // A run without steps says nothing.
    said.retain(|head, behind| head != "run" || !behind.is_empty());
    said
}

#[test]
fn a_free_text_says_what_the_one_text_says() {
    for Written { plain, free, .. } in some(5, 2000) {
        assert_eq!(says(&free), says(&plain), "{free}");
        // Where records have the kind of their first one, a text has none of its bytes.
        assert!(free.bytes().take(4).all(|byte| byte > 1));
    }
}

/// The sorts that a case with such a text counts for.
fn told(case: &Case, free: &str) -> Vec<String> {
    let mut counts = TextCounts::new();
    counts.take(&Written {
        free: free.to_string(),
        ..written(case)
    });
    let table = counts.table();
    let counted = table.lines().filter_map(|line| {
        let name = line.get(..34)?.trim_end();
        let count = line.get(34..)?.split_whitespace().next()?;
        (count == "1").then(|| name.to_string())
    });
    counted.collect()
}

#[test]
fn what_the_one_text_counts_for() {
    assert_eq!(
        told(&outage(), OUTAGE),
        [
            "store word",
            "1 thread",
            "no first contents",
            "a want",
            "a want of 0",
            "question reached",
            "no run",
            "an empty line",
            "line ends: LF alone",
            "version 1",
            "all frames",
        ]
    );
}

/// The outage with a passed count, in a free text.
const FREE: &str = "#store x 1\u{1}\r\nlocations\tP1  p1\n \nwant p1 0x1 \r\npassed 00 2# é #\n\
                    run\nwant P1 0x0\nthread 0\n#\nstore P1 0x01F4\nstore p1 01";

/// What it counts for behind the sorts of its case.
const TAKEN: [&str; 31] = [
    "name: like a step",
    "names: apart by capitals alone",
    "want before a thread",
    "want behind the run",
    "passed before its thread",
    "passed before a want",
    "want lines not by location",
    "run before a thread",
    "run without steps",
    "tabs",
    "blanks in a row",
    "blanks at a line's end",
    "a line of blanks",
    "something before locations",
    "something inside a list",
    "line ends: both",
    "no end of the last line",
    "comment alone",
    "comment behind a statement",
    "comment right behind a word",
    "comment without characters",
    "comment with #",
    "comment with other letters",
    "comment with controls",
    "comment like a statement",
    "hexadecimal, capital digits",
    "hexadecimal, zeros before",
    "a decimal number, zeros before",
    "a passed line, zeros before",
    "version 1",
    "all frames",
];

#[test]
fn freedoms_are_told() {
    let mut case = outage();
    case.passed[0] = 2;
    let told = told(&case, FREE);
    let at = told.iter().position(|name| name == "no run").unwrap_or(0);
    assert_eq!(told[at + 1..], TAKEN);
    assert_eq!(says(FREE), says(&written(&case).plain));
}

#[test]
fn spellings_are_told() {
    let code = [load(X, 1), load(X, 0), compare(X, 1, 7), compare(X, 0, 2)];
    let case = laid_out(&Layout::own(1), &[&code]);
    let loads = "  load x r1\n  load x r0\n";
    let text = |first: &str, second: &str| {
        format!("locations x\n\nthread 0\n{loads}  {first} x r1 7\n  {second} x r0 2\n")
    };
    assert_eq!(written(&case).plain, text("cmpxchg", "cmpxchg"));
    let spelled = |first: &str, second: &str| {
        let text = text(first, second);
        assert_eq!(says(&text), says(&written(&case).plain));
        let mut all = told(&case, &text);
        all.retain(|name| name.contains("compare"));
        all
    };
    let [long, short] = ["a compare as cmpxchg", "a compare as cas"];
    assert_eq!(spelled("cmpxchg", "cmpxchg"), ["compare", long]);
    assert_eq!(spelled("cas", "cas"), ["compare", short]);
    let both = "a compare as either in one text";
    assert_eq!(spelled("cas", "cmpxchg"), ["compare", long, short, both]);
    assert_ne!(says(&text("xchg", "cas")), says(&text("cas", "cas")));
}

/// x and z on one line, y and w alone: each line is told, and named by its first location.
const LINED: &str = "\
locations x y z w

line x z
line y
line w

thread 0
  store z 1

run
  persist x
  persist y
  persist w
";

fn lined() -> Case {
    let mut case = laid_out(&Layout::told(&[0, 1, 0, 2]), &[&[store(2, 1)]]);
    case.set_run(&[persist(0), persist(1), persist(2)]);
    case
}

/// The same; a line of its own goes without being said, but one line is said in any case.
const LINED_FREELY: &str = "locations a b c d\nrun\nP0\npersist b\nthread 0\nstore c 1\nline c a\n";

#[test]
fn lines_are_told() {
    assert_eq!(written(&lined()).plain, LINED);
    let own = laid_out(&Layout::told(&[0, 1]), &[&[]]);
    let text = "locations x y\n\nline x\nline y\n\nthread 0\n";
    assert_eq!(written(&own).plain, text);
    assert_ne!(says(text), says("locations x y\nthread 0\n"));
    let in_one = "locations x y\nline y x\nthread 0\n";
    assert_ne!(says(text), says(in_one));
    assert_eq!(says("locations a b\nthread 0\nline b\n"), says(text));
    let mut case = lined();
    case.set_run(&[persist(0), persist(1)]);
    assert_eq!(says(LINED_FREELY), says(&written(&case).plain));
    let beside = LINED_FREELY.replace("P0", "persist c");
    assert_eq!(says(&beside), says(LINED_FREELY));
    assert_ne!(
        says(&beside.replace("persist b", "persist d")),
        says(&beside)
    );
    let of = |text: &str| {
        let mut all = told(&case, text);
        all.retain(|name| name.contains("line") || name.contains("version"));
        all.retain(|name| name != "line ends: LF alone");
        all
    };
    let shared = [
        "version 2, some lines shared",
        "version 2, a line comes again",
    ];
    let sizes = ["version 2, locations: 4", "version 2, lines: 3"];
    let free = [
        "line behind a thread",
        "line behind the run",
        "names not by number in a line",
        "one line alone is said",
        "a line of its own is not said",
    ];
    assert_eq!(of(LINED_FREELY), [&free[..], &shared, &sizes].concat());
    let first = ["persist names the first of a line", "an empty line"];
    assert_eq!(of(LINED), [&first[..], &shared, &sizes].concat());
    let later = "persist names a later one of it".to_string();
    assert!(told(&case, &beside).contains(&later) && !told(&case, LINED).contains(&later));
}

/// The words of a line, its comment left out.
fn words_of(line: &str) -> Vec<&str> {
    let said = line.split('#').next().unwrap_or("");
    said.split_whitespace().collect()
}

#[test]
fn mistakes_stand_where_they_are_said() {
    let all = mistakes::draw(4, 120);
    assert_eq!(all.len(), 120);
    for (turn, mistakes::Mistaken { text, line }) in all.iter().enumerate() {
        let lines: Vec<Vec<&str>> = text.split('\n').map(words_of).collect();
        let mistaken = &lines[line - 1];
        let before = &lines[..line - 1];
        let named = |word: &str| {
            lines
                .iter()
                .any(|words| words.first() == Some(&"locations") && words[1..].contains(&word))
        };
        let is_line = |words: &&Vec<&str>| words.first() == Some(&"line");
        assert!(is_line(&mistaken), "{text}");
        assert!(match turn % mistakes::MAKERS.len() {
            0 => mistaken.len() == 3 && mistaken[1] == mistaken[2],
            1 => before
                .iter()
                .filter(is_line)
                .any(|words| words.contains(&mistaken[1])),
            2 => mistaken.len() == 2 && !named(mistaken[1]),
            3 => named(mistaken[1]) && !named(mistaken[2]),
            4 => mistaken.len() == 1,
            _ => named(mistaken[1]) && before.iter().all(|words| words.is_empty()),
        });
    }
}

#[test]
fn a_folder_of_cases() -> io::Result<()> {
    let folder = std::env::temp_dir().join(format!("second-texts-{}", std::process::id()));
    files::generate(3, 250, &folder)?;
    let mut found = Vec::new();
    files::each(&folder, |one| found.push(one))?;
    assert_eq!(found, some(3, 250)[..250]);
    let mut inputs = Vec::new();
    files::each_bytes(&folder, |bytes| {
        inputs.push(bytes);
        Ok(())
    })?;
    let again = files::generate(3, 1, &folder);
    fs::remove_dir_all(&folder)?;
    assert!(again.is_err());
    assert!(found.iter().map(|one| &one.bytes).eq(&inputs));
    let query = files::question(inputs.remove(0), 7);
    assert_eq!(
        (&query.input[..], query.room, query.budget),
        (&ROW[..], 1536, 7)
    );
    let trial = files::judge(query.input);
    assert_eq!((trial.job, &trial.input[..]), (Job::Bytes, &ROW[..]));
    Ok(())
}
