//! The command line of the second program.

use std::env;
use std::fs::{self, File};
use std::io::{self, Read, Write};
use std::os::fd::AsFd;
use std::path::Path;
use std::process::ExitCode;
use std::thread;
use std::time::Duration;

use second::cases::{bad, cue_files, made, pairs, shelf_files};
use second::rng::Rng;
use second::{appendix, cue, examples, files, listing, replay, shelf, stored, tally};

const USAGE: &str = "usage: second replay
       second tally
       second listing TABLE PACKETS
       second cue SHEET
       second shelf
       second make-replay SEED CALLS
       second make-listing SEED COUNT DIR
       second make-cue SEED COUNT DIR
       second make-shelf SEED COUNT DIR
       second pieces SEED
       second stored ROOT
       second check ROOT
       second examples DIR
       second appendix
       second made
       second made NAME DIR";

fn main() -> ExitCode {
    let words: Vec<String> = env::args().skip(1).collect();
    let words: Vec<&str> = words.iter().map(String::as_str).collect();
    match run(&words) {
        Ok(code) => code,
        Err(problem) => {
            eprintln!("second: {problem}");
            ExitCode::from(2)
        }
    }
}

fn run(words: &[&str]) -> io::Result<ExitCode> {
    match *words {
        ["replay"] => print(replay::run(&input()?).as_bytes())?,
        ["tally"] => print(tally::print(&input()?).as_bytes())?,
        ["listing", table, packets] => {
            let (table, packets) = (fs::read(table)?, fs::read(packets)?);
            print(listing::print(&table, &packets).as_bytes())?;
        }
        ["cue", sheet] => match cue::program(&fs::read(sheet)?) {
            Ok(table) => print(&table)?,
            Err(line) => {
                eprint!("{line}");
                return Ok(ExitCode::from(1));
            }
        },
        ["shelf"] => match shelf::program(&mut io::stdin().lock()) {
            Ok(lines) => print(lines.as_bytes())?,
            Err(error) => return Ok(unreadable(&error)),
        },
        ["make-replay", seed, calls] => {
            let stream = bad::random_stream(number(seed)?, number(calls)? as usize);
            print(&stream.bytes)?;
        }
        ["make-listing", seed, count, dir] => {
            make_listing(number(seed)?, number(count)?, Path::new(dir))?;
        }
        ["make-cue", seed, count, dir] => {
            make_cue(number(seed)?, number(count)?, Path::new(dir))?;
        }
        ["make-shelf", seed, count, dir] => {
            make_shelf(number(seed)?, number(count)?, Path::new(dir))?;
        }
        ["pieces", seed] => pieces(&mut Rng::new(number(seed)?))?,
        ["stored", root] => {
            let files = stored::files();
            files::write(Path::new(root), &files)?;
            let size: usize = files.iter().map(|(_, bytes)| bytes.len()).sum();
            let calls = stored::stored_stream().calls;
            println!(
                "stored cases: {} files, {size} bytes, {calls} calls",
                files.len()
            );
        }
        ["check", root] => {
            let (count, lines) = stored::check(Path::new(root));
            if !lines.is_empty() {
                print((lines.join("\n") + "\n").as_bytes())?;
                return Ok(ExitCode::from(1));
            }
            println!("stored cases: {count} files agree");
        }
        ["examples", dir] => files::write(Path::new(dir), &examples::files())?,
        ["appendix"] => print((appendix::lines().join("\n") + "\n").as_bytes())?,
        ["made"] => {
            let names: Vec<&str> = made::names().collect();
            print((names.join("\n") + "\n").as_bytes())?;
        }
        ["made", name, dir] => {
            let made = made::made(name).ok_or_else(|| problem("no such maker", name))?;
            files::write(Path::new(dir), &made)?;
        }
        _ => {
            eprintln!("{USAGE}");
            return Ok(ExitCode::from(2));
        }
    }
    Ok(ExitCode::SUCCESS)
}

fn input() -> io::Result<Vec<u8>> {
    let mut bytes = Vec::new();
    io::stdin().lock().read_to_end(&mut bytes)?;
    Ok(bytes)
}

fn print(bytes: &[u8]) -> io::Result<()> {
    let mut out = io::stdout().lock();
    out.write_all(bytes)?;
    out.flush()
}

/// The line of a read error, and the status that goes with it.
fn unreadable(error: &io::Error) -> ExitCode {
    eprintln!("standard input cannot be read: {error}");
    ExitCode::from(1)
}

fn problem(what: &str, word: &str) -> io::Error {
    io::Error::new(io::ErrorKind::InvalidInput, format!("{what}: {word}"))
}

fn number(word: &str) -> io::Result<u64> {
    word.parse().map_err(|_| problem("not a number", word))
}

/// Writes DIR/NNNN.table, DIR/NNNN.packets and DIR/NNNN.expected.
fn make_listing(seed: u64, count: u64, dir: &Path) -> io::Result<()> {
    for i in 0..count {
        files::write(dir, &pairs::pair(seed, i).listed(&format!("{i:04}")))?;
    }
    Ok(())
}

/// Writes DIR/NNNN.tables and DIR/NNNN.expected.
fn make_shelf(seed: u64, count: u64, dir: &Path) -> io::Result<()> {
    for i in 0..count {
        files::write(dir, &shelf_files::counted(seed, i, &format!("{i:04}")))?;
    }
    Ok(())
}

/// How long a piece is left alone: whoever reads it has time to take it before the next.
const PAUSE: Duration = Duration::from_micros(50);

/// Copies standard input in pieces of drawn sizes, each written by itself.
fn pieces(rng: &mut Rng) -> io::Result<()> {
    let bytes = input()?;
    // Not `print`: what it writes to keeps the end of a piece until there is a line.
    let mut out = File::from(io::stdout().as_fd().try_clone_to_owned()?);
    let mut rest = &bytes[..];
    while !rest.is_empty() {
        let top = rng.pick(&[1, 2, 16, 300, 4_096, 4_096]);
        let (piece, behind) = rest.split_at(rng.range(1, top).min(rest.len()));
        out.write_all(piece)?;
        out.flush()?;
        thread::sleep(PAUSE);
        rest = behind;
    }
    Ok(())
}

/// Writes DIR/NNNN.cue and DIR/NNNN.expected.
fn make_cue(seed: u64, count: u64, dir: &Path) -> io::Result<()> {
    for i in 0..count {
        files::write(dir, &cue_files::turned(seed, i, &format!("{i:04}")))?;
    }
    Ok(())
}
