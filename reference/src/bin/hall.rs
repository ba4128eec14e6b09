use std::io::{Read, Write};

fn main() -> std::io::Result<()> {
    let mut script = Vec::new();
    std::io::stdin().take(65_537).read_to_end(&mut script)?;
    std::io::stdout().write_all(reference::hall::answer(&script).as_bytes())
}
