//! Refusals: their numbers, and their words in the hall.

#[derive(Clone, Copy, Debug, PartialEq, Eq)]
pub struct Refusal {
    pub number: usize,
    pub line: usize,
    pub detail: usize,
}

/// A refusal without a line and a detail.
pub fn refusal(number: usize) -> Refusal {
    Refusal { number, line: 0, detail: 0 }
}

/// Refuses with `number` where `fault` holds.
pub fn refuse(fault: bool, number: usize) -> Result<(), Refusal> {
    if fault {
        Err(refusal(number))
    } else {
        Ok(())
    }
}

impl Refusal {
    pub fn at(self, line: usize) -> Refusal {
        Refusal { line, ..self }
    }

    pub fn about(self, detail: usize) -> Refusal {
        Refusal { detail, ..self }
    }

    pub fn words(&self) -> &'static str {
        WORDS[self.number - 1]
    }
}

const WORDS: [&str; 34] = [
    "a side is out of range",
    "the columns or the border list are out of range",
    "a link is out of order or off the ground",
    "a column has a seventh link",
    "levels, robots or duration set out of range",
    "no whole lines, or too many",
    "no line of a sheet",
    "a field cannot be read",
    "a goal out of order or out of range",
    "no end line, not the last, or a wrong count",
    "outside, letter and block do not go together",
    "a column or a height is off the site",
    "no link, or no border, or a border",
    "the end is not start and duration",
    "the start is below that of the action before",
    "a robot above is not carried on",
    "a height is not the one written, or does not fit",
    "a column is shared at one time",
    "the robot comes from nowhere",
    "too many robots at once",
    "a robot is left on the site",
    "a height is not the target",
    "no such column",
    "no robot stands there",
    "a lay without a block, or a lift with one",
    "no link, or a border where there must be none, or none where there must be one",
    "the column is held",
    "the heights do not fit",
    "as many robots as there may be",
    "a robot would have no way home",
    "an action runs",
    "no robot",
    "the site is not fresh",
    "the buffer is too short",
];
