//! Library calls with their lent memory as bytes, and their answers as text.
//! CALLS.md says both formats.
//!
//! | module    | subject                                             |
//! |-----------|-----------------------------------------------------|
//! | `wire`    | a call as bytes                                     |
//! | `answer`  | a call made, and what is printed of it              |
//! | `basis`   | the parts that seeded calls are put together from   |
//! | `make`    | the table of makers and the seeded sequence         |
//! | `files`   | makers of read, write, start and record calls       |
//! | `fresh`   | makers of visits and runs from fresh starts         |
//! | `made`    | makers of visits, runs and checks from made states  |
//! | `clauses` | makers for each clause of refusal 10                |
//! | `single`  | makers of half and middle calls                     |

pub mod answer;
pub mod basis;
pub mod clauses;
pub mod files;
pub mod fresh;
pub mod made;
pub mod make;
pub mod single;
pub mod wire;

use crate::boxes::SubBox;
use crate::state::{Kept, State};

#[derive(Clone, Copy, Debug, PartialEq, Eq)]
pub enum Kind {
    Read = 1,
    Write = 2,
    Start = 3,
    Check = 4,
    Visit = 5,
    Run = 6,
    Half = 7,
    Middle = 8,
    Record = 9,
}

impl Kind {
    pub const ALL: [Kind; 9] = [
        Kind::Read,
        Kind::Write,
        Kind::Start,
        Kind::Check,
        Kind::Visit,
        Kind::Run,
        Kind::Half,
        Kind::Middle,
        Kind::Record,
    ];

    pub fn word(&self) -> String {
        format!("{self:?}").to_lowercase()
    }
}

/// A call with everything lent to it. What a call does not use it leaves alone.
#[derive(Clone, Debug, PartialEq, Eq)]
pub struct Call {
    pub kind: Kind,
    pub head: [u8; 8],
    pub state: State,
    pub budget: u64,
    pub direction: u64,
    /// 0 the lower half, 1 the upper.
    pub half: u64,
    pub sub_box: SubBox,
    pub offset: u64,
    pub file: Vec<u8>,
    pub coefficients: Vec<i64>,
    pub store: Vec<i64>,
    pub list: Vec<Kept>,
}

impl Call {
    pub fn new(kind: Kind) -> Call {
        Call {
            kind,
            head: [0; 8],
            state: State::default(),
            budget: 0,
            direction: 0,
            half: 0,
            sub_box: SubBox::UNIT,
            offset: 0,
            file: Vec::new(),
            coefficients: Vec::new(),
            store: Vec::new(),
            list: Vec::new(),
        }
    }
}
