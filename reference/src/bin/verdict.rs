use std::io::{Read, Write};

fn main() -> std::io::Result<()> {
    let mut job = Vec::new();
    std::io::stdin().take(52_536).read_to_end(&mut job)?;
    std::io::stdout().write_all(reference::verdict::answer(&job, reference::judge::judge).as_bytes())
}
