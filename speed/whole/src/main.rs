//! The commands `replay`, `check`, `mix` and `run` of the program, in plain Rust: read with typed serde, do, write. It writes
//! what the program writes, and nothing is proved of it. See docs/SPEED.md.
//!
//! Usage: whole replay FILE | whole check FILE | whole mix --seed N FILE | whole run FILE | whole run_seen FILE, which
//! keeps what each worker saw | whole run_kept FILE, which does all that the program does | whole history FILE N, which
//! writes the first N entries of a step file's history.
#![allow(dead_code)]

mod check;
mod files;
#[path = "../../list.rs"]
mod list;
#[path = "../../machine.rs"]
mod machine;
mod mix;
mod run;
#[path = "../../split.rs"]
mod split;
#[path = "../../step.rs"]
mod step;
#[path = "../../tally.rs"]
mod tally;
mod text;

use files::{Scripts, read_history, read_scripts, read_steps};
use machine::Core;
use std::env;
use std::error::Error;
use std::fs;
use std::io::{self, Write as _};
use std::process::ExitCode;
use std::time::Instant;
use text::Text;

/// About how many bytes the line of an answer, and an entry, has.
const ANSWER: usize = 8;
const ENTRY: usize = 24;

/// The output of `replay`.
fn replay(text: String) -> Result<Vec<u8>, Box<dyn Error>> {
    let file = read_steps(&text)?;
    drop(text);
    let mut core = Core::new(file.limits, file.steps.len());
    let mut text = Text::with_room(ANSWER * file.steps.len());
    for step in &file.steps {
        text.answer(core.step(step.step()));
    }
    drop(file);
    text.size(core.size(), core.count());
    core.each_pair(|key, value| text.pair(key, value));
    Ok(text.into_bytes())
}

/// The text of a core's history, with no script and no table left when it is written.
fn history_of(core: Core, scripts: Scripts, version: u64) -> Vec<u8> {
    let stripes = scripts.limits.stripes;
    drop(scripts);
    let entries = core.into_history();
    let mut text = Text::with_room(ENTRY * entries.len());
    text.history(&entries, stripes, version);
    text.into_bytes()
}

/// Writes on standard error how long the scripts of a file take in threads, map and threads included.
fn time_run(file: &str, run: fn(&Scripts) -> Core) -> Result<(Vec<u8>, bool), Box<dyn Error>> {
    let scripts = read_scripts(&fs::read_to_string(file)?)?;
    let start = Instant::now();
    let history = run(&scripts).into_history();
    let nanos = start.elapsed().as_nanos();
    eprintln!("run {} in {nanos} ns, {} entries", scripts.scripts.len(), history.len());
    Ok((Vec::new(), true))
}

fn output() -> Result<(Vec<u8>, bool), Box<dyn Error>> {
    let words: Vec<String> = env::args().skip(1).collect();
    let words: Vec<&str> = words.iter().map(String::as_str).collect();
    let text = match words.as_slice() {
        ["replay", file] => replay(fs::read_to_string(file)?)?,
        ["history", file, most] => {
            let file = read_steps(&fs::read_to_string(file)?)?;
            let mut core = Core::new(file.limits, file.steps.len());
            for step in &file.steps {
                core.step(step.step());
            }
            let mut entries = core.into_history();
            entries.truncate(most.parse()?);
            let mut text = Text::with_room(0);
            text.history(&entries, file.limits.stripes, file.version);
            text.into_bytes()
        }
        ["check", file] => {
            let text = fs::read_to_string(file)?;
            let history = read_history(&text)?;
            drop(text);
            let (line, is_legal) = check::verdict(&history);
            return Ok((line.into_bytes(), is_legal));
        }
        ["mix", "--seed", seed, file] => {
            let scripts = read_scripts(&fs::read_to_string(file)?)?;
            let version = scripts.version;
            history_of(mix::mix(seed.parse()?, &scripts), scripts, version)
        }
        ["run", file] => {
            let scripts = read_scripts(&fs::read_to_string(file)?)?;
            history_of(run::run(&scripts), scripts, 3)
        }
        ["run_seen", file] => {
            let scripts = read_scripts(&fs::read_to_string(file)?)?;
            history_of(run::run_seen(&scripts), scripts, 3)
        }
        ["run_kept", file] => {
            let scripts = read_scripts(&fs::read_to_string(file)?)?;
            history_of(run::run_kept(&scripts), scripts, 3)
        }
        ["time_run", file] => return time_run(file, run::run),
        ["time_run_kept", file] => return time_run(file, run::run_kept),
        _ => return Err("no such words".into()),
    };
    Ok((text, true))
}

/// Writes the text; the status is that of the program: 1 of an illegal history, 3 of a file that is
/// refused.
fn main() -> ExitCode {
    match output() {
        Ok((text, is_legal)) => match io::stdout().write_all(&text) {
            Ok(()) => ExitCode::from(u8::from(!is_legal)),
            Err(_) => ExitCode::from(4),
        },
        Err(error) => {
            eprintln!("{error}");
            ExitCode::from(3)
        }
    }
}
