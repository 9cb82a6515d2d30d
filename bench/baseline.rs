//! The same work as `rtheap plan`, as a plain program: a job is read and checked, and its rate is
//! found. The commands are kept, as `rtheap plan` keeps them, and not run.
#![allow(dead_code)]

use std::hint::black_box;
use std::io::{self, BufWriter, Read, Write};
use std::process::ExitCode;

const MOST_COMMANDS: usize = 131_072;

#[derive(Clone, Copy)]
enum Command {
    New { d: usize, fields: usize },
    Arr { d: usize, elements: usize },
    Set { d: usize, value: u64 },
    Nil { d: usize },
    Mov { d: usize, s: usize },
    Get { d: usize, s: usize, i: u64 },
    Put { s: usize, i: u64, v: usize },
    Len { s: usize },
    Same { a: usize, b: usize },
    Say { s: usize },
}

struct Config {
    threads: usize,
    blocks: usize,
    live: usize,
    object: usize,
    shared: usize,
}

struct Job {
    config: Config,
    traces: Vec<Vec<Command>>,
}

fn blocks_of_record(fields: usize) -> usize {
    fields.div_ceil(3).max(1)
}

fn blocks_of_array(elements: usize) -> usize {
    let mut level = elements.div_ceil(4).max(1);
    let mut blocks = level;
    while level > 1 {
        level = level.div_ceil(4);
        blocks += level;
    }
    blocks
}

fn number(piece: &str) -> Option<u64> {
    let is_plain = piece.len() <= 19 && (piece == "0" || !piece.starts_with('0'));
    (is_plain && piece.bytes().all(|b| b.is_ascii_digit())).then(|| piece.parse().ok())?
}

fn register(piece: &str) -> Option<usize> {
    number(piece).filter(|&r| r < 16).map(|r| r as usize)
}

fn index(piece: &str) -> Option<u64> {
    number(piece).filter(|&i| i < 1 << 62)
}

fn size(piece: &str, most: usize, blocks_of: fn(usize) -> usize) -> Option<usize> {
    let size = number(piece).filter(|&size| size <= 65_535)? as usize;
    (blocks_of(size) <= most).then_some(size)
}

fn command(line: &str, most: usize) -> Option<Command> {
    let mut pieces = line.split(' ');
    let word = pieces.next()?;
    let mut next = || pieces.next();
    let command = match word {
        "new" => Command::New {
            d: register(next()?)?,
            fields: size(next()?, most, blocks_of_record)?,
        },
        "arr" => Command::Arr {
            d: register(next()?)?,
            elements: size(next()?, most, blocks_of_array)?,
        },
        "set" => Command::Set {
            d: register(next()?)?,
            value: index(next()?)?,
        },
        "nil" => Command::Nil {
            d: register(next()?)?,
        },
        "mov" => Command::Mov {
            d: register(next()?)?,
            s: register(next()?)?,
        },
        "get" => Command::Get {
            d: register(next()?)?,
            s: register(next()?)?,
            i: index(next()?)?,
        },
        "put" => Command::Put {
            s: register(next()?)?,
            i: index(next()?)?,
            v: register(next()?)?,
        },
        "len" => Command::Len {
            s: register(next()?)?,
        },
        "same" => Command::Same {
            a: register(next()?)?,
            b: register(next()?)?,
        },
        "say" => Command::Say {
            s: register(next()?)?,
        },
        _ => return None,
    };
    next().is_none().then_some(command)
}

fn config(line: &str) -> Option<Config> {
    let pieces: Vec<&str> = line.split(' ').collect();
    let ["rtheap", "1", "threads", n, "blocks", m, "live", l, "object", b, "shared", s] =
        pieces[..]
    else {
        return None;
    };
    let within = |piece, range: std::ops::RangeInclusive<u64>| {
        number(piece)
            .filter(|n| range.contains(n))
            .map(|n| n as usize)
    };
    Some(Config {
        threads: within(n, 1..=16)?,
        blocks: within(m, 1..=65_535)?,
        live: within(l, 0..=65_535)?,
        object: within(b, 1..=1024)?,
        shared: within(s, 0..=1024)?,
    })
}

fn job(text: &str) -> Option<Job> {
    let mut lines = text.strip_suffix('\n').unwrap_or(text).split('\n');
    let config = config(lines.next()?)?;
    let mut traces: Vec<Vec<Command>> = Vec::new();
    loop {
        let line = lines.next()?;
        if line == "end" {
            break;
        } else if let Some(thread) = line.strip_prefix("thread ") {
            if number(thread)? != traces.len() as u64 || traces.len() == config.threads {
                return None;
            }
            traces.push(Vec::new());
        } else {
            let command = command(line, config.object)?;
            let trace = traces.last_mut()?;
            if trace.len() == MOST_COMMANDS {
                return None;
            }
            trace.push(command);
        }
    }
    (lines.next().is_none() && traces.len() == config.threads).then_some(Job { config, traces })
}

/// The least rate, or the reason why there is none.
fn rate(c: &Config) -> Result<usize, &'static str> {
    if c.live < 5 * c.threads + blocks_of_array(c.shared) {
        return Err("live limit too small");
    }
    let taken = c.live + 2 * c.threads * c.object;
    if c.blocks < taken + 2 {
        return Err("no rate");
    }
    Ok((2 * c.blocks).div_ceil((c.blocks - taken) / 2))
}

fn answer(out: &mut impl Write) -> io::Result<u8> {
    let mut text = String::new();
    io::stdin().lock().read_to_string(&mut text)?;
    let Some(job) = job(&text) else {
        writeln!(out, "rtheap: no job")?;
        return Ok(3);
    };
    drop(text);
    black_box(&job.traces);
    match rate(&job.config) {
        Ok(rate) => {
            writeln!(out, "rate {rate}")?;
            Ok(0)
        }
        Err(why) => {
            writeln!(out, "rtheap: {why}")?;
            Ok(4)
        }
    }
}

fn main() -> ExitCode {
    let mut out = BufWriter::new(io::stdout().lock());
    match answer(&mut out).and_then(|status| out.flush().map(|()| status)) {
        Ok(status) => ExitCode::from(status),
        Err(_) => ExitCode::from(6),
    }
}
