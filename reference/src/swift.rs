//! Judging once more, with records of what the lines above come to in place of looking through them: what a plain program
//! costs that is written for speed. For tools/bench alone; the reference is `judge`.

use crate::ground::Ground;
use crate::judge::{alone, Figures};
use crate::refusal::{refusal, refuse, Refusal};
use crate::settings::Settings;
use crate::sheet::{Act, Sheet};

/// What the lines above come to at a column.
#[derive(Clone, Copy, Default)]
struct Column {
    /// The last span that holds it, and its line.
    last: Option<(usize, usize)>,
    height: i64,
    /// A lay or a lift that may not have ended: its end, and what it adds.
    changing: Option<(usize, i64)>,
}

/// Where and when a line above ended that is not carried on, its carry and its line.
struct Waits {
    column: usize,
    end: usize,
    carry: bool,
    line: usize,
}

struct Records {
    columns: Vec<Column>,
    waits: Vec<Waits>,
    ends: Vec<usize>,
    start: usize,
    figures: Figures,
}

impl Records {
    fn height(&mut self, column: usize, time: usize) -> i64 {
        let here = &mut self.columns[column];
        if let Some((end, more)) = here.changing {
            if end <= time {
                here.height += more;
                here.changing = None;
            }
        }
        here.height
    }

    fn heights_fit(&mut self, act: &Act) -> bool {
        let to_more = (act.letter == b'P') as i64;
        for (column, written, more) in [(act.from, act.from_height, 0), (act.to, act.to_height, to_more)] {
            if let (Some(c), Some(h)) = (column, written) {
                if self.height(c, act.start) != h as i64 + more {
                    return false;
                }
            }
        }
        match (act.from_height, act.to_height) {
            (Some(h), Some(k)) if act.letter == b'M' => h.abs_diff(k) <= 1,
            (Some(h), Some(k)) => h == k,
            _ => true,
        }
    }

    fn against(&mut self, act: &Act, settings: &Settings) -> Result<(), Refusal> {
        refuse(act.start < self.start, 15)?;
        if let Some(column) = self.waits.iter().filter(|w| w.end < act.start).map(|w| w.column).min() {
            return Err(refusal(16).about(column));
        }
        refuse(!self.heights_fit(act), 17)?;
        let spans = [act.from, act.to].into_iter().flatten().filter_map(|c| self.columns[c].last);
        if let Some(line) = spans.filter(|&(end, _)| end > act.start).map(|(_, line)| line).min() {
            return Err(refusal(18).about(line));
        }
        let comes_from = |w: &Waits| Some(w.column) == act.from && w.end == act.start && w.carry == act.carry;
        let before = self.waits.iter().position(comes_from);
        refuse(!act.is_entry() && before.is_none(), 19)?;
        self.ends.retain(|&end| end > act.start);
        refuse(self.ends.len() >= settings.robots, 20)?;
        before.map(|i| self.waits.swap_remove(i));
        Ok(())
    }

    fn add(&mut self, act: &Act) {
        for column in [act.from, act.to].into_iter().flatten() {
            self.columns[column].last = Some((act.end, act.line));
        }
        if let (Some(column), false) = (act.to, act.letter == b'M') {
            self.columns[column].changing = Some((act.end, if act.letter == b'D' { 1 } else { -1 }));
        }
        if let (Some(column), false) = (act.end_column(), act.is_leave()) {
            self.waits.push(Waits { column, end: act.end, carry: act.carry_after(), line: act.line });
        }
        self.ends.push(act.end);
        self.start = act.start;
        self.figures.makespan = self.figures.makespan.max(act.end);
        self.figures.costs += act.end - act.start;
        self.figures.most_robots = self.figures.most_robots.max(self.ends.len());
    }
}

pub fn judge(sheet: &Sheet, ground: &Ground, settings: &Settings) -> Result<Figures, Refusal> {
    let figures = Figures { makespan: 0, costs: 0, most_robots: 0 };
    let columns = vec![Column::default(); ground.columns()];
    let mut records = Records { columns, waits: Vec::new(), ends: Vec::new(), start: 0, figures };
    for act in &sheet.acts {
        let meets = alone(act, ground, settings).and_then(|()| records.against(act, settings));
        meets.map_err(|r| r.at(act.line))?;
        records.add(act);
    }
    if let Some(line) = records.waits.iter().map(|w| w.line).min() {
        return Err(refusal(21).at(line));
    }
    for (column, &target) in sheet.targets.iter().enumerate() {
        if records.height(column, usize::MAX) != target as i64 {
            return Err(refusal(22).at(sheet.end_line).about(column));
        }
    }
    Ok(records.figures)
}
