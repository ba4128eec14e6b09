//! The program `verdict`: a job's bytes to the answer's.

use crate::gate::Site;
use crate::ground::Ground;
use crate::judge::Figures;
use crate::play::play;
use crate::refusal::{refuse, Refusal};
use crate::settings::Settings;
use crate::sheet::{read, Fields, Sheet, LINE};

fn job_line(bytes: &[u8]) -> Result<(Ground, Settings), Refusal> {
    refuse(bytes.len() < LINE, 6)?;
    refuse(bytes[LINE - 1] != b'\n' || !bytes.starts_with(b"JOB "), 7)?;
    let mut fields = Fields::of(bytes);
    let mut numbers = [0; 5];
    for n in &mut numbers {
        *n = fields.number(6)?;
    }
    let [x, y, levels, robots, set] = numbers;
    Ok((Ground::square(x, y)?, Settings::new(levels, robots, set)?))
}

fn drawing(heights: &[usize]) -> String {
    let row = |row: &[usize]| row.iter().map(|h| format!("{h:3}")).collect::<String>() + "\n";
    heights.chunks(16).map(row).collect()
}

fn line(word: &str, numbers: [usize; 3]) -> String {
    let [a, b, c] = numbers;
    format!("{word}{a:6}{b:6}{c:6}\n")
}

fn refused(word: &str, refusal: Refusal) -> String {
    line(word, [refusal.number, refusal.line, refusal.detail])
}

type Judge = fn(&Sheet, &Ground, &Settings) -> Result<Figures, Refusal>;

pub fn answer(job: &[u8], judge: Judge) -> String {
    let (ground, settings) = match job_line(job) {
        Ok(made) => made,
        Err(refusal) => return refused("BAD ", refusal),
    };
    let judged = read(&job[LINE..], &ground, &settings).and_then(|s| judge(&s, &ground, &settings).map(|f| (s, f)));
    let (sheet, figures) = match judged {
        Ok(accepted) => accepted,
        Err(refusal) => return refused("BAD ", refusal),
    };
    let mut site = Site::open(ground, settings);
    match play(&sheet, &mut site) {
        Ok(()) => line("OK  ", [figures.makespan, figures.costs, figures.most_robots]) + &drawing(&site.heights),
        Err(refusal) => refused("HELD", refusal),
    }
}
