//! The command `watch` of the program `judge` in plain Rust: reads an entry a line with typed serde, judges it, and prints the
//! verdict; and `check` of a serializable history file. It writes what the program writes, and nothing is proved of it. See
//! docs/SPEED.md.
//!
//! Usage: watch --stripes N | watch --commit-order | check --serializable FILE
mod entry;
mod judge;
mod order;
mod rules;

use entry::{Entry, Event};
use judge::{Judge, Rules};
use order::Order;
use rules::{Commits, Locks};
use serde::Deserialize;
use std::env;
use std::error::Error;
use std::fs;
use std::io::{self, BufRead, BufReader};
use std::process::ExitCode;

/// How many bytes a line may have.
const MAX_LINE: usize = 1000;

fn read_entry(line: &[u8]) -> Result<Entry, Box<dyn Error>> {
    let entry: Entry = serde_json::from_slice(line)?;
    let named = match entry.event {
        Event::Busy(_, named) => named,
        _ => 0,
    };
    if entry.caller < 64 && named < 64 {
        Ok(entry)
    } else {
        Err("a caller is out of range".into())
    }
}

#[derive(Deserialize)]
struct History {
    entries: Vec<Entry>,
}

/// Whether the history of a file has a serial order. Its line does not say why it has none.
fn check_order(file: &str) -> Result<(String, bool), Box<dyn Error>> {
    let history: History = serde_json::from_slice(&fs::read(file)?)?;
    let mut judge = Judge::new(Order::new());
    let is_serializable = history.entries.iter().all(|entry| judge.feed(entry)) && judge.rules().is_serializable();
    let line = if is_serializable {
        format!("serializable {}", judge.counts())
    } else {
        "not serializable".into()
    };
    Ok((line, is_serializable))
}

/// The line of the verdict on the entries that standard input has, and whether they are legal.
fn watch(rules: impl Rules) -> Result<(String, bool), Box<dyn Error>> {
    let mut judge = Judge::new(rules);
    let mut input = BufReader::with_capacity(1 << 16, io::stdin().lock());
    let mut line = Vec::new();
    while input.read_until(b'\n', &mut line)? > 0 {
        let text = line.strip_suffix(b"\n").unwrap_or(&line);
        if text.len() > MAX_LINE {
            return Err("a line is too long".into());
        }
        if !text.iter().all(u8::is_ascii_whitespace) && !judge.feed(&read_entry(text)?) {
            break;
        }
        line.clear();
    }
    Ok(judge.verdict())
}

fn verdict() -> Result<(String, bool), Box<dyn Error>> {
    let words: Vec<String> = env::args().skip(1).collect();
    match words.iter().map(String::as_str).collect::<Vec<_>>()[..] {
        ["watch", "--stripes", stripes] => watch(Locks::new(stripes.parse()?)),
        ["watch", "--commit-order"] => watch(Commits::new()),
        ["check", "--serializable", file] => check_order(file),
        _ => Err("no such words".into()),
    }
}

/// Prints the verdict; the status is that of the program.
fn main() -> ExitCode {
    match verdict() {
        Ok((line, is_legal)) => {
            println!("{line}");
            ExitCode::from(u8::from(!is_legal))
        }
        Err(error) => {
            eprintln!("{error}");
            ExitCode::from(3)
        }
    }
}
