//! What the frames of one case say together: below some limit 102, from there on one and the same answer.

#[derive(Default)]
pub struct Known {
    /// The greatest limit that was answered 102.
    undecided: Option<u32>,
    decided: Option<Decided>,
}

#[derive(Clone, PartialEq, Eq)]
pub struct Decided {
    /// The least limit that was answered 100 or 101: of runs, or of states.
    pub limit: u32,
    pub number: u8,
    pub run: Vec<u8>,
}

impl Known {
    pub fn is_decided(&self) -> bool {
        self.decided.is_some()
    }

    /// 100 or 101; 0 where no limit decided.
    pub fn number(&self) -> u8 {
        self.decided.as_ref().map_or(0, |one| one.number)
    }

    /// The bytes of the run that was shown; none where none was.
    pub fn run(&self) -> &[u8] {
        self.decided.as_ref().map_or(&[], |one| &one.run)
    }

    pub fn take_undecided(&mut self, limit: u32) -> Option<&'static str> {
        self.undecided = self.undecided.max(Some(limit));
        self.crossed()
    }

    pub fn take_decided(&mut self, now: Decided) -> Option<&'static str> {
        let first = self.decided.get_or_insert_with(|| now.clone());
        first.limit = first.limit.min(now.limit);
        if (first.number, &first.run) != (now.number, &now.run) {
            return Some("two answers to one question");
        }
        self.crossed()
    }

    /// A limit that decides is above all that do not.
    fn crossed(&self) -> Option<&'static str> {
        let decided = self.decided.as_ref()?.limit;
        let undecided = self.undecided?;
        (undecided >= decided).then_some("undecided by a greater limit")
    }

    /// It was decided by some limit, and not by one less, which was tried.
    pub fn is_exact(&self) -> bool {
        let one = self.decided.as_ref();
        one.map_or(false, |one| one.limit.checked_sub(1) == self.undecided)
    }
}
