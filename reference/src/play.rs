//! Playing an accepted plan.

use crate::gate::Site;
use crate::refusal::{refuse, Refusal};
use crate::sheet::{Act, Sheet};

fn call(act: &Act, site: &mut Site) -> Result<(), Refusal> {
    match (act.letter, act.from, act.to) {
        _ if act.is_wait() => Ok(()),
        (_, None, Some(to)) => site.enter(to, act.carry),
        (_, Some(from), None) => site.leave(from),
        (b'P', Some(from), Some(to)) => site.lift(from, to),
        (b'D', Some(from), Some(to)) => site.lay(from, to),
        (_, Some(from), Some(to)) => site.move_to(from, to),
        (_, None, None) => unreachable!("an accepted line is inside somewhere"),
    }
}

pub fn play(sheet: &Sheet, site: &mut Site) -> Result<(), Refusal> {
    refuse(!site.is_fresh(), 33)?;
    let mut time = 0;
    for act in &sheet.acts {
        while time < act.start {
            site.tick();
            time += 1;
        }
        call(act, site).map_err(|r| r.at(act.line))?;
    }
    site.settle();
    Ok(())
}
