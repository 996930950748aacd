//! Draws the sand figure of a plate, stores it on files that stand for disks, takes two away, rebuilds them and
//! compares every byte; then shows what the library refuses. Ends with 2 where an argument is wrong and with 1
//! where anything else is, and says what.
mod args;
mod disks;
mod figure;
mod folder;
mod given;
mod png;
mod progress;
mod refusals;

use args::{Args, HELP};
use disks::Disks;
use folder::Folder;
use std::env;
use std::ffi::OsString;
use std::io::{self, Write};
use std::process::ExitCode;

const PLATE: &str = "plate.png";
const LOST: &str = "lost.png";
const REBUILT: &str = "rebuilt.png";

fn main() -> ExitCode {
    let words: Vec<OsString> = env::args_os().skip(1).collect();
    let status = if words.iter().any(|word| word == "--help") {
        told(say(HELP), 1)
    } else {
        match asked(words) {
            Ok((args, folder)) => told(story(&args, &folder), 1),
            Err(why) => told(Err(why), 2),
        }
    };
    ExitCode::from(status)
}

/// The exit status, which is `wrong` where there is something to tell.
fn told(outcome: Result<(), String>, wrong: u8) -> u8 {
    let Err(why) = outcome else { return 0 };
    // Where this cannot be written, the status still tells.
    let _ = writeln!(io::stderr(), "plate: {why}");
    wrong
}

/// What is asked for, judged before anything is written.
fn asked(words: Vec<OsString>) -> Result<(Args, Folder), String> {
    let args = Args::new(words)?;
    let folder = Folder::judge(&args.out)?;
    Ok((args, folder))
}

fn story(args: &Args, folder: &Folder) -> Result<(), String> {
    let ([a, b], size) = (args.mode, args.size);
    let picture = figure::draw(args.mode, size);
    folder.open()?;
    let plate = save(args, folder, PLATE, &picture)?;
    say(&format!(
        "A square plate sounds in mode {a},{b}, and sand settles along its still lines.\n\
         The picture has {size} x {size} bytes, none of them compressed: {plate}"
    ))?;
    lose_two(args, folder, &picture)?;
    for refused in [
        refusals::weak()?,
        refusals::damaged(&picture)?,
        refusals::unnoticed(&picture)?,
    ] {
        say(&format!("\n{refused}"))?;
    }
    Ok(())
}

/// The picture is stored, lost and given back.
fn lose_two(args: &Args, folder: &Folder, picture: &[u8]) -> Result<(), String> {
    let (shape, n, len) = (args.shape, args.shape.n(), picture.len());
    let disks = Disks::lay(shape, folder, picture)?;
    say(&format!(
        "It is laid on {} disks, {n} of data and one of parity, in {} stripes of shape {shape}.",
        n + 1,
        disks.stripes()
    ))?;

    let held = disks.held(args.lose)?;
    disks.take_away(args.lose)?;
    let lost = save(args, folder, LOST, &disks.picture(len)?)?;
    let gone = |byte: &usize| args.lose.contains(&disks.disk_of(*byte));
    let [lower, upper] = args.lose;
    say(&format!(
        "Disks {lower} and {upper} are taken away, and with them {} of the picture's {len} bytes: {lost}",
        (0..len).filter(gone).count()
    ))?;

    disks.rebuild()?;
    let back = disks.picture(len)?;
    let rebuilt = save(args, folder, REBUILT, &back)?;
    if back != picture || disks.held(args.lose)? != held {
        return Err("the library answered 0, and what it rebuilt is not what was stored".into());
    }
    say(&format!(
        "They are rebuilt from the other {}, and every byte of both disks and of the picture is as it\n\
         was: {rebuilt}",
        n - 1
    ))
}

/// Writes a picture, and hands back where it is.
fn save(args: &Args, folder: &Folder, name: &str, picture: &[u8]) -> Result<String, String> {
    folder.write(name, &png::file(args.size, picture))?;
    Ok(folder.path(name).display().to_string())
}

/// Says it on standard output.
fn say(text: &str) -> Result<(), String> {
    writeln!(io::stdout(), "{text}")
        .map_err(|error| format!("standard output takes no more: {error}"))
}
