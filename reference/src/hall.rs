//! The program `hall`: a script's bytes to the answers'.

use crate::gate::{Action, Site};
use crate::ground::Ground;
use crate::judge::judge;
use crate::play::play;
use crate::refusal::Refusal;
use crate::settings::Settings;
use crate::sheet::{number, read};

const MOST_BYTES: usize = 65_536;
const MOST_NEWLINES: usize = 8_192;
const MOST_SHEETS: usize = 16;

const OPEN: &str = "open square X Y LEVELS ROBOTS SET or open listed COLUMNS LEVELS ROBOTS SET BORDER LINK ..";
const CALLS: &str = "enter, move, lay, lift, leave, tick, recall, clear, look or play";
const ENTER: &str = "enter COLUMN or enter COLUMN block";
const TICK: &str = "tick or tick TIMES, 1 to 999999";

/// Why a line does not do what it says.
enum Fault {
    Refused(Refusal),
    Expected(&'static str),
}

impl From<Refusal> for Fault {
    fn from(refusal: Refusal) -> Fault {
        Fault::Refused(refusal)
    }
}

impl Fault {
    fn text(&self) -> String {
        match self {
            Fault::Refused(r) => {
                format!("refused {}, line {}, detail {}: {}", r.number, r.line, r.detail, r.words())
            }
            Fault::Expected(what) => format!("expected {what}"),
        }
    }
}

fn column(word: &[u8]) -> Option<usize> {
    number(word).filter(|&c| c <= 65_535)
}

fn link(word: &[u8]) -> Option<(usize, usize)> {
    let dash = word.iter().position(|&b| b == b'-')?;
    Some((column(&word[..dash])?, column(&word[dash + 1..])?))
}

/// What a well-formed `open` names: its ground and its three settings.
fn opening(words: &[&[u8]]) -> Option<(Result<Ground, Refusal>, [usize; 3])> {
    let numbers = |words: &[&[u8]]| words.iter().map(|w| number(w)).collect::<Option<Vec<usize>>>();
    match words {
        [b"open", b"square", sizes @ ..] if sizes.len() == 5 => {
            let n = numbers(sizes)?;
            Some((Ground::square(n[0], n[1]), [n[2], n[3], n[4]]))
        }
        [b"open", b"listed", rest @ ..] if rest.len() >= 5 => {
            let columns = column(rest[0])?;
            let n = numbers(&rest[1..4])?;
            let border = rest[4];
            let links = rest[5..].iter().map(|w| link(w)).collect::<Option<Vec<_>>>()?;
            if border.iter().any(|&b| b != b'0' && b != b'1') {
                return None;
            }
            Some((Ground::listed(columns, border, &links), [n[0], n[1], n[2]]))
        }
        _ => None,
    }
}

fn open(words: &[&[u8]]) -> Result<Site, Fault> {
    let (ground, [levels, robots, set]) = opening(words).ok_or(Fault::Expected(OPEN))?;
    Ok(Site::open(ground?, Settings::new(levels, robots, set)?))
}

fn recall(site: &Site) -> Result<String, Fault> {
    let recall = site.recall()?;
    let does = match recall.action {
        Action::Move(to) => format!("moves to {to}"),
        _ => "leaves".to_string(),
    };
    Ok(format!("robot at {} {does}, {} left", recall.column, recall.left))
}

fn look(site: &Site) -> String {
    let (robots, standing, carried) = (site.robots.len(), site.standing(), site.carried());
    let mut text = format!("robots {robots}, blocks standing {standing}, blocks carried {carried}");
    for column in 0..site.ground.columns() {
        if column % site.ground.row == 0 {
            text += &format!("\n{column:6}");
        }
        text += &format!("{:3}{}", site.heights[column], site.mark(column));
    }
    text
}

fn plays(site: &mut Site, sheet: &[u8]) -> Result<(), Refusal> {
    let sheet = read(sheet, &site.ground, &site.settings)?;
    judge(&sheet, &site.ground, &site.settings)?;
    play(&sheet, site)
}

/// A call whose words are all columns.
fn call(site: &mut Site, words: &[&[u8]]) -> Result<String, Fault> {
    let (columns, what) = match words[0] {
        b"move" => (2, "move FROM TO"),
        b"lay" => (2, "lay FROM TO"),
        b"lift" => (2, "lift FROM TO"),
        _ => (1, "leave COLUMN"),
    };
    let named: Option<Vec<usize>> = words[1..].iter().map(|w| column(w)).collect();
    let named = named.filter(|n| n.len() == columns).ok_or(Fault::Expected(what))?;
    match words[0] {
        b"move" => site.move_to(named[0], named[1])?,
        b"lay" => site.lay(named[0], named[1])?,
        b"lift" => site.lift(named[0], named[1])?,
        _ => site.leave(named[0])?,
    }
    Ok("granted".to_string())
}

fn enter(site: &mut Site, words: &[&[u8]]) -> Result<String, Fault> {
    let block = words.len() == 3 && words[2] == b"block";
    let named = words.get(1).and_then(|w| column(w)).filter(|_| words.len() == 2 || block);
    site.enter(named.ok_or(Fault::Expected(ENTER))?, block)?;
    Ok("granted".to_string())
}

fn tick(site: &mut Site, words: &[&[u8]]) -> Result<String, Fault> {
    let times = match words {
        [_] => Some(1),
        [_, times] => number(times).filter(|t| (1..=999_999).contains(t)),
        _ => None,
    };
    for _ in 0..times.ok_or(Fault::Expected(TICK))? {
        site.tick();
    }
    Ok("granted".to_string())
}

#[derive(Default)]
struct Hall {
    site: Option<Site>,
    sheets: usize,
}

impl Hall {
    fn does(&mut self, words: &[&[u8]], sheet: &[u8]) -> Result<String, Fault> {
        let Some(site) = &mut self.site else {
            let site = open(words)?;
            let columns = site.ground.columns();
            self.site = Some(site);
            return Ok(format!("open, {columns} columns"));
        };
        let alone = |what| if words.len() == 1 { Ok(()) } else { Err(Fault::Expected(what)) };
        match words[0] {
            b"enter" => enter(site, words),
            b"move" | b"lay" | b"lift" | b"leave" => call(site, words),
            b"tick" => tick(site, words),
            b"recall" => alone("recall").and_then(|()| recall(site)),
            b"clear" => alone("clear").map(|()| format!("cleared, {} actions", site.clear())),
            b"look" => alone("look").map(|()| look(site)),
            b"play" => {
                alone("play")?;
                if self.sheets == MOST_SHEETS {
                    return Err(Fault::Expected("at most 16 sheets in a script"));
                }
                self.sheets += 1;
                plays(site, sheet)?;
                Ok("granted".to_string())
            }
            _ => Err(Fault::Expected(CALLS)),
        }
    }
}

/// The lines of a sheet at the beginning of these lines: up to and with the first that ends one, or all.
fn sheet_lines(lines: &[&[u8]]) -> usize {
    lines.iter().position(|l| l.starts_with(b"END ")).map_or(lines.len(), |last| last + 1)
}

fn is_too_long(script: &[u8]) -> bool {
    script.len() > MOST_BYTES || script.iter().filter(|&&b| b == b'\n').count() > MOST_NEWLINES
}

pub fn answer(script: &[u8]) -> String {
    if is_too_long(script) {
        return format!("a script has at most {MOST_BYTES} bytes and {MOST_NEWLINES} newlines\n");
    }
    let lines: Vec<&[u8]> = script.split_inclusive(|&b| b == b'\n').collect();
    let (mut hall, mut text, mut next) = (Hall::default(), String::new(), 0);
    while next < lines.len() {
        let line = lines[next];
        next += 1;
        let number = next;
        let words: Vec<&[u8]> = line.split(u8::is_ascii_whitespace).filter(|w| !w.is_empty()).collect();
        if words.is_empty() || line[0] == b'#' {
            continue;
        }
        let mut sheet = Vec::new();
        if words[0] == b"play" {
            let taken = sheet_lines(&lines[next..]);
            sheet = lines[next..next + taken].concat();
            next += taken;
        }
        let said = hall.does(&words, &sheet).unwrap_or_else(|fault| fault.text());
        text += &format!("{number:6}  {said}\n");
    }
    text
}
