//! The hub rules of document 01, with the corrections of C-12, the explained
//! calls of C-15, the lanes of C-18 and the recordings of C-19, as a model of
//! their own, compared with the C library over random calls.
//!
//! Usage: model [--calls N] [--seed S] [--partial] [--self-check]
//!        model --replay FILE PORTS BUFFERS POWER_GOOD CURRENT REMOVABLE
//!
//! Fails at the first difference, and where the calls left a reachable cell of
//! the coverage tables unvisited.  --partial permits unvisited cells, for
//! short runs.  --self-check puts mistakes into the library's answers and
//! fails unless each is found.
//!
//! --replay replays a recording in the model alone, on a new hub of these
//! numbers.  It writes the answers' bytes to standard output, and a line of
//! decimal numbers to standard error: BLOCKS REFUSAL STORED ANSWERED EMPTIED
//! ACTIVE.  BLOCKS were replayed; REFUSAL is 0, or 1 to 5 for what the next
//! one is refused for.  Numbers that give no hub give the line 6.

mod answer;
mod block;
mod block_mistakes;
mod choose;
mod compare;
mod coverage;
mod damage;
mod explained;
mod form;
mod hub;
mod lane_mistakes;
mod lanes;
mod library;
mod mistakes;
mod port;
mod random;
mod reason;
mod reason_mistakes;
mod record;
mod recorded;
mod recordings;
mod replay;
mod replay_mistakes;
mod request;
mod search_mistakes;
mod situations;
mod spoil;
mod spoiled;
mod table;
mod translator;
mod under_way;
mod written;

use std::env;
use std::fs;
use std::io::{self, BufWriter, Write};
use std::process::ExitCode;

use coverage::Coverage;
use hub::Hub;
use library::{Library, Linked};
use replay::{History, Replay, Tally};

const USAGE: &str = "usage: model [--calls N] [--seed S] [--partial] [--self-check]
       model --replay FILE PORTS BUFFERS POWER_GOOD CURRENT REMOVABLE";

/// Compares so many calls with the library's.
type Comparison = fn(&dyn Library, u64, u64, &mut Coverage) -> Result<(), String>;

struct Options {
    calls: u64,
    seed: u64,
    partial: bool,
    self_check: bool,
}

fn main() -> ExitCode {
    let words: Vec<_> = env::args().skip(1).collect();
    if let Some(("--replay", words)) = words.split_first().map(|(first, rest)| (&**first, rest)) {
        return replay_file(words).unwrap_or_else(usage);
    }
    let options = match options() {
        Some(options) => options,
        None => return usage(),
    };
    let passed = if options.self_check { self_check(&options) } else { comparison(&options) };
    if passed {
        ExitCode::SUCCESS
    } else {
        ExitCode::FAILURE
    }
}

fn usage() -> ExitCode {
    eprintln!("{USAGE}");
    ExitCode::from(2)
}

fn options() -> Option<Options> {
    let mut options = Options { calls: 2_000_000, seed: 1, partial: false, self_check: false };
    let mut words = env::args().skip(1);
    while let Some(word) = words.next() {
        match word.as_str() {
            "--calls" => options.calls = words.next()?.parse().ok()?,
            "--seed" => options.seed = words.next()?.parse().ok()?,
            "--partial" => options.partial = true,
            "--self-check" => options.self_check = true,
            _ => return None,
        }
    }
    Some(options)
}

fn comparison(options: &Options) -> bool {
    let mut coverage = Coverage::new();
    let Options { calls, seed, .. } = *options;
    let compared = compare::run(&Linked, calls, seed, &mut coverage)
        .and_then(|()| recorded::run(&Linked, calls, seed, &mut coverage));
    if let Err(difference) = compared {
        println!("{difference}");
        println!("model: FAILED, a difference, seed {seed}");
        return false;
    }
    coverage.print();
    let faults = coverage.faults();
    for fault in &faults {
        println!("{fault}");
    }
    let passed = faults.is_empty() || options.partial;
    let (reachable, visited) = coverage.cells();
    let (blocks, replayed) = (coverage.recordings.blocks(), coverage.recordings.calls);
    println!(
        "model: {}, {calls} calls without a difference, {} of them explained, {blocks} blocks \
         and {replayed} calls replayed, {visited} of {reachable} reachable cells visited, seed \
         {seed}",
        if passed { "passed" } else { "FAILED" },
        coverage.explained()
    );
    passed
}

fn self_check(options: &Options) -> bool {
    let calls = mistakes::all().chain(reason_mistakes::all());
    let calls = calls.map(|(name, library)| (name, library, compare::run as Comparison));
    let blocks = replay_mistakes::all();
    let blocks = blocks.map(|(name, library)| (name, library, recorded::run as Comparison));
    let mistakes: Vec<_> = calls.chain(blocks).collect();
    let widest = mistakes.iter().map(|(name, ..)| name.len()).max().unwrap_or(0);
    let mut found = 0;
    for (name, library, run) in &mistakes {
        let result = run(*library, options.calls, options.seed, &mut Coverage::new());
        let place = result.err().and_then(|text| text.split(':').next().map(String::from));
        found += place.iter().count();
        println!("{name:widest$}  {}", place.unwrap_or("NOT FOUND".into()));
    }
    let passed = found == mistakes.len();
    let state = if passed { "passed" } else { "FAILED" };
    println!("model: self-check {state}, {found} of {} mistakes found", mistakes.len());
    passed
}

/// Replays a recording in the model alone.  None if the words are not as the
/// usage says.
fn replay_file(words: &[String]) -> Option<ExitCode> {
    let (file, numbers) = words.split_first()?;
    // A number too large for 32 bits is outside the rules as well.
    let number = |word: &String| word.parse::<u64>().map(|number| number.min(u32::MAX.into()));
    let numbers: Vec<_> = numbers.iter().map(number).collect::<Result<_, _>>().ok()?;
    let [ports, buffers, power_good, current, removable] =
        <[u64; 5]>::try_from(numbers).ok()?.map(|number| number as u32);
    let hub = match Hub::new(ports, buffers, power_good, current, removable) {
        Some(hub) => hub,
        None => {
            eprintln!("{}", answer::OUTSIDE);
            return Some(ExitCode::SUCCESS);
        }
    };
    let replayed = fs::read(file)
        .and_then(|recording| replay_recording(hub, &recording))
        .map_err(|error| format!("{file}: {error}"));
    Some(match replayed.and_then(|replay| replay.balance()) {
        Ok(()) => ExitCode::SUCCESS,
        Err(fault) => {
            eprintln!("{fault}");
            ExitCode::FAILURE
        }
    })
}

fn replay_recording(hub: Hub, recording: &[u8]) -> io::Result<Replay> {
    let mut replay = Replay::new(hub);
    let mut output = BufWriter::new(io::stdout().lock());
    let (mut blocks, mut refusal) = (0, 0);
    for block in recording.chunks(block::LENGTH) {
        match replay.block(block, blocks + 1, History::note) {
            Ok(made) => {
                made.iter().try_for_each(|made| output.write_all(&made.answer.written()))?
            }
            Err(told) => {
                refusal = told as u8;
                break;
            }
        }
        blocks += 1;
    }
    output.flush()?;
    let Tally { stored, answered, emptied } = replay.history.tally();
    eprintln!("{blocks} {refusal} {stored} {answered} {emptied} {}", replay.active());
    Ok(replay)
}
