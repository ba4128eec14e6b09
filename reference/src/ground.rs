//! Grounds: how many columns, which are border, which are linked.

use crate::refusal::{refuse, Refusal};

#[derive(Clone, Debug)]
pub struct Ground {
    /// One for each column.
    pub border: Vec<bool>,
    /// For each column the columns that it is linked to, in rising order.
    pub links: Vec<Vec<usize>>,
    /// How many columns stand in one row of a drawing in the hall.
    pub row: usize,
}

impl Ground {
    pub fn square(x_side: usize, y_side: usize) -> Result<Ground, Refusal> {
        refuse(!(1..=16).contains(&x_side) || !(1..=16).contains(&y_side), 1)?;
        let place = |column: usize| (column / y_side, column % y_side);
        let columns = x_side * y_side;
        let border = (0..columns)
            .map(|c| {
                let (x, y) = place(c);
                x == 0 || x == x_side - 1 || y == 0 || y == y_side - 1
            })
            .collect();
        let next = |c: usize, d: usize| {
            let ((x, y), (v, w)) = (place(c), place(d));
            x.abs_diff(v) + y.abs_diff(w) == 1
        };
        let links = (0..columns).map(|c| (0..columns).filter(|&d| next(c, d)).collect()).collect();
        Ok(Ground { border, links, row: y_side })
    }

    /// `border` has a digit 0 or 1 for each column.
    pub fn listed(columns: usize, border: &[u8], links: &[(usize, usize)]) -> Result<Ground, Refusal> {
        refuse(!(1..=256).contains(&columns) || border.len() != columns, 2)?;
        for (i, &(lower, higher)) in links.iter().enumerate() {
            refuse(lower >= higher || higher >= columns, 3)?;
            refuse(i > 0 && links[i - 1] >= (lower, higher), 3)?;
        }
        let linked = |c: usize, d: usize| links.contains(&(c.min(d), c.max(d)));
        let links: Vec<Vec<usize>> = (0..columns).map(|c| (0..columns).filter(|&d| linked(c, d)).collect()).collect();
        refuse(links.iter().any(|l| l.len() > 6), 4)?;
        Ok(Ground { border: border.iter().map(|&b| b == b'1').collect(), links, row: 16 })
    }

    pub fn columns(&self) -> usize {
        self.border.len()
    }

    pub fn linked(&self, c: usize, d: usize) -> bool {
        self.links[c].contains(&d)
    }
}
