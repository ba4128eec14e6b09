//! The site and its gate: the calls, and what a tick does.

use crate::ground::Ground;
use crate::recall::steps_home;
use crate::refusal::{refusal, refuse, Refusal};
use crate::settings::{Settings, Work};

#[derive(Clone, Copy, Debug, PartialEq, Eq)]
pub enum Action {
    Enter,
    Move(usize),
    Lay(usize),
    Lift(usize),
    Leave,
}

impl Action {
    fn other_column(&self) -> Option<usize> {
        match *self {
            Action::Move(to) | Action::Lay(to) | Action::Lift(to) => Some(to),
            Action::Enter | Action::Leave => None,
        }
    }

    fn changes(&self) -> Option<usize> {
        match *self {
            Action::Lay(to) | Action::Lift(to) => Some(to),
            _ => None,
        }
    }
}

/// A robot, at the column where its action started while one runs.
#[derive(Clone, Copy, Debug)]
pub struct Robot {
    pub column: usize,
    pub block: bool,
    /// The action that runs, and the timesteps that it still takes.
    pub runs: Option<(Action, usize)>,
}

#[derive(Clone, Debug)]
pub struct Site {
    pub ground: Ground,
    pub settings: Settings,
    pub heights: Vec<usize>,
    pub robots: Vec<Robot>,
    pub brought_in: usize,
    pub carried_out: usize,
}

impl Site {
    pub fn open(ground: Ground, settings: Settings) -> Site {
        let heights = vec![0; ground.columns()];
        Site { ground, settings, heights, robots: Vec::new(), brought_in: 0, carried_out: 0 }
    }

    pub fn is_fresh(&self) -> bool {
        self.robots.is_empty() && self.heights.iter().all(|&h| h == 0)
    }

    pub fn runs(&self) -> bool {
        self.robots.iter().any(|r| r.runs.is_some())
    }

    pub fn standing(&self) -> usize {
        self.heights.iter().sum()
    }

    pub fn carried(&self) -> usize {
        self.robots.iter().filter(|r| r.block).count()
    }

    fn is_held(&self, column: usize) -> bool {
        let holds = |r: &Robot| r.column == column || r.runs.is_some_and(|(a, _)| a.other_column() == Some(column));
        self.robots.iter().any(holds)
    }

    /// Which columns a running lay or lift works on.
    pub fn changing(&self) -> Vec<bool> {
        let works_on = |c: usize| self.robots.iter().any(|r| r.runs.is_some_and(|(a, _)| a.changes() == Some(c)));
        (0..self.ground.columns()).map(works_on).collect()
    }

    fn on_ground(&self, columns: &[usize]) -> Result<(), Refusal> {
        refuse(columns.iter().any(|&c| c >= self.ground.columns()), 23)
    }

    fn standing_at(&self, column: usize) -> Result<usize, Refusal> {
        self.robots.iter().position(|r| r.column == column && r.runs.is_none()).ok_or(refusal(24))
    }

    /// Refuses where a robot would have no way home with `column` changing too.
    fn keeps_ways_home(&self, column: usize) -> Result<(), Refusal> {
        let mut changing = self.changing();
        changing[column] = true;
        let lost = |c: &usize| steps_home(&self.ground, &self.heights, &changing, *c).is_none();
        match self.robots.iter().map(|r| r.column).filter(lost).min() {
            Some(lowest) => Err(refusal(30).about(lowest)),
            None => Ok(()),
        }
    }

    fn start(&mut self, robot: usize, action: Action, work: Work) {
        self.robots[robot].runs = Some((action, self.settings.duration(work)));
    }

    pub fn enter(&mut self, column: usize, block: bool) -> Result<(), Refusal> {
        self.on_ground(&[column])?;
        refuse(!self.ground.border[column], 26)?;
        refuse(self.is_held(column), 27)?;
        refuse(self.robots.len() >= self.settings.robots, 29)?;
        self.robots.push(Robot { column, block, runs: None });
        self.start(self.robots.len() - 1, Action::Enter, Work::Entry);
        self.brought_in += block as usize;
        Ok(())
    }

    pub fn move_to(&mut self, from: usize, to: usize) -> Result<(), Refusal> {
        self.on_ground(&[from, to])?;
        let robot = self.standing_at(from)?;
        refuse(!self.ground.linked(from, to), 26)?;
        refuse(self.is_held(to), 27)?;
        refuse(self.heights[from].abs_diff(self.heights[to]) > 1, 28)?;
        let work = if self.robots[robot].block { Work::LoadedMove } else { Work::EmptyMove };
        self.start(robot, Action::Move(to), work);
        Ok(())
    }

    pub fn lay(&mut self, from: usize, to: usize) -> Result<(), Refusal> {
        let robot = self.may_work(from, to, true)?;
        let (h, k) = (self.heights[from], self.heights[to]);
        refuse(h != k || h == self.settings.levels - 1, 28)?;
        self.keeps_ways_home(to)?;
        self.start(robot, Action::Lay(to), Work::Deliver);
        Ok(())
    }

    pub fn lift(&mut self, from: usize, to: usize) -> Result<(), Refusal> {
        let robot = self.may_work(from, to, false)?;
        refuse(self.heights[to] != self.heights[from] + 1, 28)?;
        self.keeps_ways_home(to)?;
        self.start(robot, Action::Lift(to), Work::PickUp);
        Ok(())
    }

    /// What a lay and a lift ask alike, before the heights.
    fn may_work(&self, from: usize, to: usize, block: bool) -> Result<usize, Refusal> {
        self.on_ground(&[from, to])?;
        let robot = self.standing_at(from)?;
        refuse(self.robots[robot].block != block, 25)?;
        refuse(!self.ground.linked(from, to) || self.ground.border[to], 26)?;
        refuse(self.is_held(to), 27)?;
        Ok(robot)
    }

    pub fn leave(&mut self, column: usize) -> Result<(), Refusal> {
        self.on_ground(&[column])?;
        let robot = self.standing_at(column)?;
        refuse(!self.ground.border[column], 26)?;
        self.start(robot, Action::Leave, Work::Leave);
        Ok(())
    }

    pub fn tick(&mut self) {
        for i in 0..self.robots.len() {
            match self.robots[i].runs {
                Some((action, 1)) => self.end(i, action),
                Some((action, left)) => self.robots[i].runs = Some((action, left - 1)),
                None => {}
            }
        }
        // an ended leave is marked by still running with nothing left
        self.robots.retain(|r| r.runs != Some((Action::Leave, 0)));
    }

    fn end(&mut self, robot: usize, action: Action) {
        let robot = &mut self.robots[robot];
        robot.runs = None;
        match action {
            Action::Enter => {}
            Action::Move(to) => robot.column = to,
            Action::Lay(to) => {
                robot.block = false;
                self.heights[to] += 1;
            }
            Action::Lift(to) => {
                robot.block = true;
                self.heights[to] -= 1;
            }
            Action::Leave => {
                robot.runs = Some((Action::Leave, 0));
                self.carried_out += robot.block as usize;
            }
        }
    }

    pub fn settle(&mut self) {
        while self.runs() {
            self.tick();
        }
    }

    /// The mark of a column in the hall's drawing.
    pub fn mark(&self, column: usize) -> char {
        for robot in &self.robots {
            let here = robot.column == column;
            match robot.runs {
                None if here && robot.block => return 'b',
                None if here => return 'r',
                Some((Action::Enter, _)) if here => return '+',
                Some((Action::Leave, _)) if here => return '-',
                Some((Action::Move(_), _)) if here => return '>',
                Some((Action::Lay(_), _)) if here => return 'd',
                Some((Action::Lift(_), _)) if here => return 'u',
                Some((Action::Move(to), _)) if to == column => return '<',
                Some((Action::Lay(to), _)) if to == column => return '^',
                Some((Action::Lift(to), _)) if to == column => return 'v',
                _ => {}
            }
        }
        '.'
    }
}
