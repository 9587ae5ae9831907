//! A case as its records, its one text and a free text.

use super::{free, plain};
use crate::judge::case::Case;
use crate::judge::writing::encode;
use crate::streams::random::Random;

#[derive(Clone, Debug, PartialEq, Eq)]
pub struct Written {
    pub bytes: Vec<u8>,
    pub plain: String,
    pub free: String,
}

impl Written {
    pub fn of(random: &mut Random, case: &Case) -> Written {
        Written {
            bytes: encode(case),
            plain: plain::text(case),
            free: free::text(random, case),
        }
    }
}
