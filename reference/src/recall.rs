//! Ways home, and recall.

use std::collections::VecDeque;

use crate::gate::{Action, Robot, Site};
use crate::ground::Ground;
use crate::refusal::{refusal, refuse, Refusal};

/// The fewest steps home from a column, by breadth-first search; none where there is no way home.
pub fn steps_home(ground: &Ground, heights: &[usize], changing: &[bool], column: usize) -> Option<usize> {
    if changing[column] {
        return None;
    }
    let mut seen = vec![false; ground.columns()];
    seen[column] = true;
    let mut queue = VecDeque::from([(column, 0)]);
    while let Some((c, steps)) = queue.pop_front() {
        if ground.border[c] {
            return Some(steps);
        }
        for &d in &ground.links[c] {
            if !seen[d] && !changing[d] && heights[c].abs_diff(heights[d]) <= 1 {
                seen[d] = true;
                queue.push_back((d, steps + 1));
            }
        }
    }
    None
}

/// What recall answers: a move or a leave of the robot at a column, and how many actions are left.
pub struct Recall {
    pub column: usize,
    pub action: Action,
    pub left: usize,
}

impl Site {
    fn steps(&self, column: usize) -> Option<usize> {
        steps_home(&self.ground, &self.heights, &self.changing(), column)
    }

    pub fn recall(&self) -> Result<Recall, Refusal> {
        refuse(self.runs(), 31)?;
        let home = |r: &Robot| (self.steps(r.column).expect("each robot has a way home"), r.column);
        let (steps, column) = self.robots.iter().map(home).min().ok_or(refusal(32))?;
        let left = self.robots.iter().map(|r| home(r).0 + 1).sum();
        if steps == 0 {
            return Ok(Recall { column, action: Action::Leave, left });
        }
        let near = |d: usize| self.heights[column].abs_diff(self.heights[d]) <= 1 && self.steps(d) == Some(steps - 1);
        let to = self.ground.links[column].iter().copied().find(|&d| near(d)).expect("a step nearer");
        Ok(Recall { column, action: Action::Move(to), left })
    }

    /// Ticks until nothing runs and obeys recall until no robot is there; how many actions that took.
    pub fn clear(&mut self) -> usize {
        let mut actions = 0;
        self.settle();
        while let Ok(recall) = self.recall() {
            let obeyed = match recall.action {
                Action::Move(to) => self.move_to(recall.column, to),
                _ => self.leave(recall.column),
            };
            obeyed.expect("what recall names is granted");
            self.settle();
            actions += 1;
        }
        actions
    }
}
