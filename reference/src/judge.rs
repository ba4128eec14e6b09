//! Judging a sheet that has been read: refusals 11 to 22, and the figures.

use crate::ground::Ground;
use crate::refusal::{refusal, refuse, Refusal};
use crate::settings::Settings;
use crate::sheet::{Act, Sheet};

#[derive(Clone, Copy, Debug)]
pub struct Figures {
    pub makespan: usize,
    pub costs: usize,
    pub most_robots: usize,
}

/// The rules of a line by itself, 11 to 14.
pub fn alone(act: &Act, ground: &Ground, settings: &Settings) -> Result<(), Refusal> {
    let one_of_two = act.from.is_none() != act.from_height.is_none() || act.to.is_none() != act.to_height.is_none();
    let outside = act.from.is_none() || act.to.is_none();
    refuse(one_of_two || (act.from.is_none() && act.to.is_none()) || (outside && act.letter != b'M'), 11)?;
    refuse((act.letter == b'P' && act.carry) || (act.letter == b'D' && !act.carry), 11)?;

    let levels = if act.letter == b'M' { settings.levels } else { settings.levels - 1 };
    refuse([act.from, act.to].iter().flatten().any(|&c| c >= ground.columns()), 12)?;
    refuse([act.from_height, act.to_height].iter().flatten().any(|&h| h >= levels), 12)?;

    if let (Some(from), Some(to)) = (act.from, act.to) {
        refuse(!act.is_wait() && !ground.linked(from, to), 13)?;
        refuse(act.letter != b'M' && ground.border[to], 13)?;
    } else {
        refuse([act.from, act.to].iter().flatten().any(|&c| !ground.border[c]), 13)?;
    }

    refuse(act.end != act.start + settings.duration(act.work()), 14)
}

/// The height of a column at a time, by the lines told of.
fn height(acts: &[Act], column: usize, time: usize) -> i64 {
    let works = acts.iter().filter(|a| a.to == Some(column) && a.end <= time);
    works.map(|a| (a.letter == b'D') as i64 - (a.letter == b'P') as i64).sum()
}

/// Whether a line that is none of an entry starts where and when `act` ends.
fn is_carried_on(act: &Act, acts: &[Act]) -> bool {
    acts.iter().any(|next| !next.is_entry() && next.from == act.end_column() && next.start == act.end)
}

fn heights_fit(act: &Act, above: &[Act]) -> bool {
    let stands = |column: Option<usize>, written: Option<usize>, more: i64| match (column, written) {
        (Some(c), Some(h)) => height(above, c, act.start) == h as i64 + more,
        _ => true,
    };
    let to_more = (act.letter == b'P') as i64;
    if !stands(act.from, act.from_height, 0) || !stands(act.to, act.to_height, to_more) {
        return false;
    }
    match (act.from_height, act.to_height) {
        (Some(h), Some(k)) if act.letter == b'M' => h.abs_diff(k) <= 1,
        (Some(h), Some(k)) => h == k,
        _ => true,
    }
}

/// The rules of a line against those above it, 15 to 20.
fn against(act: &Act, above: &[Act], settings: &Settings) -> Result<(), Refusal> {
    refuse(above.last().is_some_and(|before| act.start < before.start), 15)?;

    // lines stand in rising order of their starts, so what starts at the end of a line stands below it
    let left = (0..above.len()).filter(|&i| {
        let one = &above[i];
        !one.is_leave() && one.end < act.start && !is_carried_on(one, &above[i + 1..])
    });
    if let Some(column) = left.filter_map(|i| above[i].end_column()).min() {
        return Err(refusal(16).about(column));
    }

    refuse(!heights_fit(act, above), 17)?;

    let collides = |one: &&Act| one.start < act.end && act.start < one.end && one.shares_a_column(act);
    if let Some(one) = above.iter().find(collides) {
        return Err(refusal(18).about(one.line));
    }

    let comes_from = |one: &Act| {
        !one.is_leave() && one.end == act.start && one.end_column() == act.from && one.carry_after() == act.carry
    };
    refuse(!act.is_entry() && !above.iter().any(comes_from), 19)?;

    let robots = 1 + above.iter().filter(|one| one.holds(act.start)).count();
    refuse(robots > settings.robots, 20)
}

fn sheets_end(sheet: &Sheet) -> Result<(), Refusal> {
    for act in &sheet.acts {
        if !act.is_leave() && !is_carried_on(act, &sheet.acts) {
            return Err(refusal(21).at(act.line));
        }
    }
    for (column, &target) in sheet.targets.iter().enumerate() {
        if height(&sheet.acts, column, usize::MAX) != target as i64 {
            return Err(refusal(22).at(sheet.end_line).about(column));
        }
    }
    Ok(())
}

pub fn judge(sheet: &Sheet, ground: &Ground, settings: &Settings) -> Result<Figures, Refusal> {
    let acts = &sheet.acts;
    for (i, act) in acts.iter().enumerate() {
        let meets = alone(act, ground, settings).and_then(|()| against(act, &acts[..i], settings));
        meets.map_err(|r| r.at(act.line))?;
    }
    sheets_end(sheet)?;
    // spans begin to share a timestep at the start of one of them
    let at_once = |time: usize| acts.iter().filter(|a| a.holds(time)).count();
    Ok(Figures {
        makespan: acts.iter().map(|a| a.end).max().unwrap_or(0),
        costs: acts.iter().map(|a| a.end - a.start).sum(),
        most_robots: acts.iter().map(|a| at_once(a.start)).max().unwrap_or(0),
    })
}
