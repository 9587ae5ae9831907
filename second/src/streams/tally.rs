//! The table of counts: each with its name, the least it must be and, of some, the most it may be.

/// Something to be counted: its name, the least number of it, and how it is told.
pub struct Sort<F> {
    pub name: &'static str,
    pub least: u64,
    pub told: F,
}

pub const fn sort<F: Copy>(name: &'static str, least: u64, told: F) -> Sort<F> {
    Sort { name, least, told }
}

pub struct Row {
    pub name: String,
    pub count: u128,
    least: u64,
    most: Option<u64>,
}

pub fn row(name: &str, count: impl Into<u128>, least: u64) -> Row {
    Row {
        name: name.to_string(),
        count: count.into(),
        least,
        most: None,
    }
}

impl Row {
    pub fn at_most(self, most: u64) -> Row {
        Row {
            most: Some(most),
            ..self
        }
    }
}

/// Two in a hundred: were more frames refused with 10, the others would be too few.
pub fn few_of(frames: u64) -> u64 {
    frames / 50
}

fn table(rows: &[Row], frames: u64) -> String {
    let digits = rows.iter().map(|row| row.count.to_string().len()).max();
    let width = digits.unwrap_or(0).max(8);
    let heads = ["count", "least", "most"];
    let mut table = format!(
        "{:<34} {:>width$} {:>8} {:>8}\n",
        "frames", heads[0], heads[1], heads[2]
    );
    for row in rows {
        let Row {
            name, count, least, ..
        } = row;
        let most = row.most.map_or(String::new(), |most| format!(" {most:>8}"));
        table += &format!("{name:<34} {count:>width$} {least:>8}{most}\n");
    }
    table + &format!("{:<34} {frames:>width$}\n", "all frames")
}

/// The counts of one stream's frames.
pub trait Counts<F> {
    fn take(&mut self, frame: &F);

    /// Every count with its name and its minimum.
    fn rows(&self) -> Vec<Row>;

    fn frames(&self) -> u64;

    /// Wrong answers.
    fn wrong(&self) -> Vec<String>;

    fn table(&self) -> String {
        table(&self.rows(), self.frames())
    }

    /// Wrong answers, and counts that are not as they must be.
    fn faults(&self) -> Vec<String> {
        [self.wrong(), amiss(&self.rows())].concat()
    }
}

/// What is said of each count that is too low or too high.
pub fn amiss(rows: &[Row]) -> Vec<String> {
    rows.iter().filter_map(said).collect()
}

fn said(row: &Row) -> Option<String> {
    let Row {
        name, count, least, ..
    } = row;
    if *count < (*least).into() {
        return Some(format!("{name}: {count}, at least {least} wanted"));
    }
    let most = row.most.filter(|&most| *count > most.into())?;
    Some(format!("{name}: {count}, at most {most} wanted"))
}
