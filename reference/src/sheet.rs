//! Reading a plan sheet: refusals 6 to 10.

use crate::ground::Ground;
use crate::refusal::{refusal, refuse, Refusal};
use crate::settings::{Settings, Work};

pub const LINE: usize = 35;
pub const MOST_LINES: usize = 1500;

/// An ACT line. Where a column or a height is none, it is outside.
#[derive(Clone, Copy, Debug)]
pub struct Act {
    pub line: usize,
    pub start: usize,
    pub end: usize,
    pub from: Option<usize>,
    pub from_height: Option<usize>,
    pub carry: bool,
    pub letter: u8,
    pub to: Option<usize>,
    pub to_height: Option<usize>,
}

impl Act {
    pub fn is_entry(&self) -> bool {
        self.letter == b'M' && self.from.is_none()
    }

    pub fn is_leave(&self) -> bool {
        self.letter == b'M' && self.to.is_none()
    }

    pub fn is_wait(&self) -> bool {
        self.letter == b'M' && self.from == self.to && self.from_height == self.to_height
    }

    pub fn is_move(&self) -> bool {
        self.letter == b'M' && !self.is_entry() && !self.is_leave() && !self.is_wait()
    }

    pub fn work(&self) -> Work {
        match self.letter {
            b'P' => Work::PickUp,
            b'D' => Work::Deliver,
            _ if self.is_entry() => Work::Entry,
            _ if self.is_leave() => Work::Leave,
            _ if self.is_wait() => Work::Wait,
            _ if self.carry => Work::LoadedMove,
            _ => Work::EmptyMove,
        }
    }

    pub fn end_column(&self) -> Option<usize> {
        if self.letter == b'M' {
            self.to
        } else {
            self.from
        }
    }

    pub fn carry_after(&self) -> bool {
        match self.letter {
            b'P' => true,
            b'D' => false,
            _ => self.carry,
        }
    }

    pub fn shares_a_column(&self, other: &Act) -> bool {
        let has = |c: Option<usize>| c.is_some() && (c == other.from || c == other.to);
        has(self.from) || has(self.to)
    }

    pub fn holds(&self, time: usize) -> bool {
        self.start <= time && time < self.end
    }
}

#[derive(Clone, Debug)]
pub struct Sheet {
    pub targets: Vec<usize>,
    pub acts: Vec<Act>,
    pub end_line: usize,
}

/// A decimal number without leading zeros.
pub fn number(digits: &[u8]) -> Option<usize> {
    let leading_zero = digits.len() > 1 && digits[0] == b'0';
    if digits.is_empty() || digits.len() > 9 || leading_zero || !digits.iter().all(u8::is_ascii_digit) {
        return None;
    }
    std::str::from_utf8(digits).ok()?.parse().ok()
}

/// Takes the fields of a line one after another, each justified to the right.
pub struct Fields<'a> {
    rest: &'a [u8],
    taken: usize,
}

impl<'a> Fields<'a> {
    pub fn of(line: &'a [u8]) -> Fields<'a> {
        Fields { rest: &line[4..LINE - 1], taken: 0 }
    }

    fn text(&mut self, width: usize) -> &'a [u8] {
        let (field, rest) = self.rest.split_at(width);
        self.rest = rest;
        self.taken += 1;
        let blanks = field.iter().take_while(|&&b| b == b' ').count();
        &field[blanks..]
    }

    fn unreadable(&self) -> Refusal {
        refusal(8).about(self.taken)
    }

    pub fn number(&mut self, width: usize) -> Result<usize, Refusal> {
        let text = self.text(width);
        number(text).ok_or(self.unreadable())
    }

    fn number_or(&mut self, width: usize, outside: u8) -> Result<Option<usize>, Refusal> {
        let text = self.text(width);
        if text == [outside] {
            return Ok(None);
        }
        number(text).map(Some).ok_or(self.unreadable())
    }

    fn one_of(&mut self, width: usize, letters: &[u8]) -> Result<u8, Refusal> {
        let text = self.text(width);
        if text.len() == 1 && letters.contains(&text[0]) {
            return Ok(text[0]);
        }
        Err(self.unreadable())
    }

    fn unused(&self) -> Result<(), Refusal> {
        refuse(self.rest.iter().any(|&b| b != b' '), 8)
    }
}

fn act(fields: &mut Fields, line: usize) -> Result<Act, Refusal> {
    Ok(Act {
        line,
        start: fields.number(6)?,
        end: fields.number(6)?,
        from: fields.number_or(4, b'S')?,
        from_height: fields.number_or(3, b'S')?,
        carry: fields.one_of(2, b"01")? == b'1',
        letter: fields.one_of(2, b"MPD")?,
        to: fields.number_or(4, b'E')?,
        to_height: fields.number_or(3, b'E')?,
    })
}

struct Reader<'a> {
    ground: &'a Ground,
    settings: &'a Settings,
    sheet: Sheet,
    last_goal: Option<usize>,
}

impl Reader<'_> {
    fn goal(&mut self, fields: &mut Fields) -> Result<(), Refusal> {
        let (column, height) = (fields.number(6)?, fields.number(6)?);
        fields.unused()?;
        refuse(!self.sheet.acts.is_empty(), 9)?;
        refuse(self.last_goal.is_some_and(|last| column <= last), 9)?;
        refuse(column >= self.ground.columns() || self.ground.border[column], 9)?;
        refuse(height == 0 || height >= self.settings.levels, 9)?;
        self.sheet.targets[column] = height;
        self.last_goal = Some(column);
        Ok(())
    }

    fn line(&mut self, bytes: &[u8], line: usize, last: bool) -> Result<(), Refusal> {
        refuse(bytes[LINE - 1] != b'\n', 7)?;
        let mut fields = Fields::of(bytes);
        let word = &bytes[..4];
        match word {
            b"GOAL" => self.goal(&mut fields)?,
            b"ACT " => {
                let act = act(&mut fields, line)?;
                self.sheet.acts.push(act);
            }
            b"NOTE" => refuse(bytes[4..LINE - 1].iter().any(|b| !(32..=126).contains(b)), 7)?,
            b"END " => {
                let count = fields.number(6)?;
                fields.unused()?;
                refuse(!last || count != self.sheet.acts.len(), 10)?;
                self.sheet.end_line = line;
            }
            _ => return Err(refusal(7)),
        }
        refuse(last && word != b"END ", 10)
    }
}

pub fn read(bytes: &[u8], ground: &Ground, settings: &Settings) -> Result<Sheet, Refusal> {
    refuse(bytes.is_empty() || bytes.len() % LINE != 0 || bytes.len() / LINE > MOST_LINES, 6)?;
    let sheet = Sheet { targets: vec![0; ground.columns()], acts: Vec::new(), end_line: 0 };
    let mut reader = Reader { ground, settings, sheet, last_goal: None };
    let lines = bytes.len() / LINE;
    for (i, line) in bytes.chunks(LINE).enumerate() {
        reader.line(line, i + 1, i + 1 == lines).map_err(|r| r.at(i + 1))?;
    }
    Ok(reader.sheet)
}
