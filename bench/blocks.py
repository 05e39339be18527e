#!/usr/bin/env python3
"""How long blocks and segments take beside reading the same lines as JSON.

It puts a program into a copy of `crates`, which `rt` (on the path) proves and builds, and runs it over made sources:
products with up to three offers, each of up to two stocks. A round reads each line (`read`), has the kit's `serde_json` read it
(`serde`), reads it and looks for faults (`faults`), reads it and makes its block (`block`), or does so and makes a segment of each
256 blocks (`segment`: all three). The five go by turns over each piece of 5,120 lines, in processor time; for each piece the best of
fifteen rounds counts, so that what else the machine does in one of them tells little, and the pieces are added. Then the built
program is given the same sources, 256 at a time, and each `refresh` behind them, which makes a segment of their blocks, is timed
from outside (`refresh`); for each the best of three loads counts. Run `./run --prove examples/shop.ndjson` once before.

    python3 bench/blocks.py [TREES [WORK [PROGRAM]]]      # 100,000 trees; the copy is made in the folder WORK
"""
import os
import shutil
import subprocess
import sys
import tempfile
import time

from made import MAPPING, Draws, product

PROGRAM = r'''//! Times what is done with each line of the standard input.
#![tactic(auto)]
ghost use Rattle.std.specs.Prelude.{◌≡◌, ◌≤◌, true, map, IfSome};
ghost use Rattle.std.specs.List.{All};
ghost use Rattle.flattener.specs.Fits.{BlockFits};
ghost use Rattle.flattener.specs.Seen.{block_seen};
ghost use Rattle.segment_builder.specs.Blocks.{objects_of};

use flattener::{Block, block};
use mapping::Mapping;
use segment_builder::built;
use serde_json::Value;
use std::alloc::{AllocError, AllocFailed, Global};
use std::io;
use std::io::Read;
use std::time::CpuClock;
use tree_json::{Json, JsonReader, read};
use tree_objects::first_fault;

const FIELDS: &str =
    r#"{"properties":{"name":{"type":"text"},"offers":{"type":"nested","properties":{"color":{"type":"keyword"},"price":{"type":"long"},"stock":{"type":"nested","properties":{"n":{"type":"long"},"site":{"type":"keyword"}}}}},"rel":{"type":"join","relations":{"question":"answer"}}}}"#;

/// Why there is no measurement.
#[derive(Debug, Drop)]
enum Fault {
    Memory,
    Mapping,
    Io(io::Error),
}

impl From<AllocError> for Fault {
    fn from(_: AllocError) -> Fault {
        Fault::Memory
    }
}

impl<T: Drop> From<AllocFailed<T>> for Fault {
    fn from(_: AllocFailed<T>) -> Fault {
        Fault::Memory
    }
}

impl From<io::Error> for Fault {
    fn from(error: io::Error) -> Fault {
        Fault::Io(error)
    }
}

/// What is done with each line.
#[derive(Clone, Copy)]
enum Work {
    Read,
    Serde,
    Faults,
    Block,
}

fn faults(alloc: Global, mapping: &Mapping, source: &Json) -> u64 {
    match first_fault(alloc, mapping, 1, source) {
        Ok(None) => 1,
        _ => 0,
    }
}

/// The block of a source, if it has one.
fn block_of(alloc: Global, mapping: &Mapping, source: &Json) -> Option<Block>
    ensures { IfSome result (λ block. BlockFits mapping.now (block_seen block)) }
{
    let Json::Object(_) = source else {
        return None;
    };
    if mapping.generation() < 1 {
        return None;
    }
    match block(alloc, mapping, 1, source, b"1", 0) {
        Ok(block) => Some(block),
        Err(_) => None,
    }
}

fn documents(alloc: Global, mapping: &Mapping, source: &Json) -> u64 {
    match block_of(alloc, mapping, source) {
        Some(block) => block.documents.len() as u64,
        None => 0,
    }
}

/// Adds the block of a line.
fn add(
    alloc: Global,
    mapping: &Mapping,
    reader: &mut JsonReader,
    line: &[u8],
    blocks: &mut Vec<Block>,
)
    requires { All (BlockFits mapping.now) (map block_seen blocks.old.items) }
    ensures { All (BlockFits mapping.now) (map block_seen blocks.new.items) }
{
    if let Ok(source) = reader.read(alloc, line) {
        if let Some(block) = block_of(alloc, mapping, &source) {
            let _ = blocks.push(block);
        }
    }
}

/// Adds the blocks of so many lines, or of all that there are. The text behind them.
fn add_lines<'a>(
    alloc: Global,
    mapping: &Mapping,
    reader: &mut JsonReader,
    count: u32,
    text: &'a [u8],
    blocks: &mut Vec<Block>,
) -> &'a [u8]
    requires { All (BlockFits mapping.now) (map block_seen blocks.old.items) }
    ensures { All (BlockFits mapping.now) (map block_seen blocks.new.items) }
{
    let at = line_end(text);
    if count == 0 || at >= text.len() {
        return text;
    }
    add(alloc, mapping, reader, text.split_at(at).0, blocks);
    add_lines(alloc, mapping, reader, count - 1, text.split_at(at + 1).1, blocks)
}

/// Whether blocks have no more than so many objects.
fn are_few(blocks: &[Block], most: u64) -> bool
    ensures { result ≡ true → objects_of (map block_seen blocks.now) ≤ most }
{
    match blocks {
        [] => true,
        [block, more @ ..] => {
            let own = block.documents.len() as u64;
            own <= most && are_few(more, most - own)
        }
    }
}

/// How many documents the segment of blocks has.
fn sealed(alloc: Global, mapping: &Mapping, blocks: &[Block]) -> u64
    requires { All (BlockFits mapping.now) (map block_seen blocks.now) }
{
    if blocks.is_empty() || !are_few(blocks, 67_108_864) {
        return 0;
    }
    match built(alloc, mapping, blocks) {
        Ok(segment) => u64::from(segment.docs()),
        Err(_) => 0,
    }
}

/// How many documents the segments of each 256 lines have.
fn segments(alloc: Global, mapping: &Mapping, text: &[u8]) -> u64 {
    let mut reader = JsonReader::new(alloc);
    let mut sum = 0u64;
    let mut rest = text;
    for _ in 0..u64::MAX {
        let mut blocks = Vec::new(alloc);
        rest = add_lines(alloc, mapping, &mut reader, 256, rest, &mut blocks);
        if blocks.is_empty() {
            break;
        }
        sum = sum.wrapping_add(sealed(alloc, mapping, blocks.as_slice()));
    }
    sum
}

fn serde(alloc: Global, line: &[u8]) -> u64 {
    match Value::from_slice(alloc, line) {
        Ok(_) => 1,
        Err(_) => 0,
    }
}

fn done(alloc: Global, work: Work, mapping: &Mapping, reader: &mut JsonReader, line: &[u8]) -> u64 {
    if let Work::Serde = work {
        return serde(alloc, line);
    }
    match reader.read(alloc, line) {
        Ok(source) => match work {
            Work::Read | Work::Serde => 1,
            Work::Faults => faults(alloc, mapping, &source),
            Work::Block => documents(alloc, mapping, &source),
        },
        Err(_) => 0,
    }
}

/// The place of the first newline, or the length.
fn line_end(text: &[u8]) -> usize {
    for at in 0..text.len() {
        if text[at] == b'\n' {
            return at;
        }
    }
    text.len()
}

fn round(alloc: Global, work: Work, mapping: &Mapping, text: &[u8]) -> u64 {
    let mut reader = JsonReader::new(alloc);
    let mut sum = 0u64;
    let mut rest = text;
    for _ in 0..u64::MAX {
        let at = line_end(rest);
        if at >= rest.len() {
            break;
        }
        let line = rest.split_at(at).0;
        sum = sum.wrapping_add(done(alloc, work, mapping, &mut reader, line));
        rest = rest.split_at(at + 1).1;
    }
    sum
}

/// The microseconds of processor time so far.
fn spent<R: CpuClock>(rt: &R) -> Result<u64, Fault> {
    let now = rt.thread_cpu_time()?;
    Ok(now.as_secs().wrapping_mul(1_000_000).wrapping_add(now.subsec_micros() as u64))
}

fn report(rt: &HostRuntime, name: &str, piece: u32, from: u64, sum: u64) -> Result<(), Fault> {
    let spent = spent(rt)?.wrapping_sub(from);
    println!(rt; "{name} {piece} {spent} {sum}")?;
    Ok(())
}

/// Times each work on a piece of the lines.
fn timed(rt: &HostRuntime, mapping: &Mapping, piece: u32, text: &[u8]) -> Result<(), Fault> {
    let from = spent(rt)?;
    let sum = round(rt.alloc(), Work::Read, mapping, text);
    report(rt, "read", piece, from, sum)?;
    let from = spent(rt)?;
    let sum = round(rt.alloc(), Work::Serde, mapping, text);
    report(rt, "serde", piece, from, sum)?;
    let from = spent(rt)?;
    let sum = round(rt.alloc(), Work::Faults, mapping, text);
    report(rt, "faults", piece, from, sum)?;
    let from = spent(rt)?;
    let sum = round(rt.alloc(), Work::Block, mapping, text);
    report(rt, "block", piece, from, sum)?;
    let from = spent(rt)?;
    let sum = segments(rt.alloc(), mapping, text);
    report(rt, "segment", piece, from, sum)?;
    Ok(())
}

/// Where the first 5,120 lines end.
fn piece_end(text: &[u8]) -> usize {
    let mut lines = 0u32;
    for at in 0..text.len() {
        if text[at] == b'\n' {
            lines = lines.wrapping_add(1);
            if lines == 5_120 {
                return at + 1;
            }
        }
    }
    text.len()
}

fn main(rt: HostRuntime) -> Result<(), Fault> {
    let mut read_bytes = Vec::new(rt.alloc());
    rt.reader().read_to_end(&mut read_bytes)?;
    let text = Vec::from_slice(rt.alloc(), read_bytes.as_slice())?;
    drop(read_bytes);
    let Ok(fields) = read(rt.alloc(), FIELDS.as_bytes()) else {
        return Err(Fault::Mapping);
    };
    let Ok(mapping) = Mapping::read(rt.alloc(), &fields) else {
        return Err(Fault::Mapping);
    };
    for _ in 0..15 {
        let mut rest = text.as_slice();
        for piece in 0..u32::MAX {
            if rest.is_empty() {
                break;
            }
            let (front, back) = rest.split_at(piece_end(rest).min(rest.len()));
            timed(&rt, &mapping, piece, front)?;
            rest = back;
        }
    }
    Ok(())
}
'''
# What falls at each call of a function that calls itself.
FALLS = {"add_lines": "l.count", "are_few": "length l.blocks.now"}
FALLS_TEXT = """use Rattle.std.proofs.Common.{length}
use Rattle.block_times.proofs.+%s.Given as goal

abbrev pub decreases-%s : goal.decreases-%s
decreases-%s l = %s
"""
NAME = "block_times"
BELOW = (
    "segment_builder flattener layout part_text block_bits term_table doc_values postings segment segment_parts stored_sources"
    " tree_objects mapping_growth mapping_body mapping tree_json analysis itoa json serde_json smallvec"
)
HERE = os.path.dirname(os.path.dirname(os.path.abspath(__file__)))


def sources(count):
    draws = Draws(7)
    for number in range(count):
        yield product(number, draws) + "\n"


def built(work):
    """The program, proved and built in a copy of the crates."""
    crates = os.path.join(work, "crates")
    shutil.copytree(os.path.join(HERE, "crates"), crates, dirs_exist_ok=True, ignore=shutil.ignore_patterns("out"))
    with open(os.path.join(HERE, "crates.txt")) as lines, open(os.path.join(work, "crates.txt"), "w") as out:
        out.write(lines.read() + "%s: %s\n" % (NAME, BELOW))
    with open(os.path.join(HERE, "HANDLES")) as lines, open(os.path.join(work, "HANDLES"), "w") as out:
        out.write(lines.read())
    folder = os.path.join(crates, NAME)
    os.makedirs(os.path.join(folder, "src"), exist_ok=True)
    with open(os.path.join(folder, "src", "main.rt"), "w") as out:
        out.write(PROGRAM)
    for name, falls in FALLS.items():
        proofs = os.path.join(folder, "proofs", "+" + name)
        os.makedirs(proofs, exist_ok=True)
        with open(os.path.join(proofs, "Invariants.antt"), "w") as out:
            out.write(FALLS_TEXT % (name, name, name, name, falls))
    subprocess.run(["rt", "run"], cwd=folder, check=True, stdin=subprocess.DEVNULL)
    return os.path.join(folder, "out", NAME)


def seals(program, count):
    """The milliseconds that the program takes for each segment of so many sources."""
    with tempfile.TemporaryDirectory() as folder:
        words = [program, "serve", os.path.join(folder, "store")]
        session = subprocess.Popen(words, stdin=subprocess.PIPE, stdout=subprocess.PIPE)

        def ask(lines, replies):
            session.stdin.write(lines.encode())
            session.stdin.flush()
            return [session.stdout.readline() for _ in range(replies)]

        ask(MAPPING + "\n", 1)
        spent, batch = [], []
        for number, source in enumerate(sources(count)):
            batch.append('{"index":{"_id":"%d"}}\n%s' % (number, source))
            if len(batch) == 256:
                ask("".join(batch), 256)
                start = time.perf_counter()
                ask('{"refresh":{}}\n', 1)
                spent.append((time.perf_counter() - start) * 1000)
                batch = []
        session.stdin.close()
        session.wait()
    return spent


def main():
    trees = int(sys.argv[1]) if len(sys.argv) > 1 else 100_000
    work = sys.argv[2] if len(sys.argv) > 2 else tempfile.mkdtemp()
    os.makedirs(work, exist_ok=True)
    program = built(work)
    lines = os.path.join(work, "sources")
    with open(lines, "w") as out:
        out.writelines(sources(trees))
    with open(lines) as given:
        said = subprocess.run([program], stdin=given, stdout=subprocess.PIPE, check=True, text=True).stdout
    pieces = {}
    for line in said.splitlines():
        name, piece, spent, total = line.split()
        own = pieces.setdefault(name, {})
        own[piece] = min(own.get(piece, (10**12, 0)), (int(spent), int(total)))
    best = {name: [sum(it) for it in zip(*own.values())] for name, own in pieces.items()}
    read, serde = best["read"][0], best["serde"][0]
    for name, (spent, total) in best.items():
        print("%-7s %8.1f ms  %5.2f times reading  %5.2f times serde  %d" % (name, spent / 1000, spent / read, spent / serde, total))
    spent, total = best["segment"]
    print("documents read, made and put into segments: %d a second" % (total * 1_000_000 // spent))
    own = sys.argv[3] if len(sys.argv) > 3 else os.path.join(HERE, "crates/nestsearch/out/nestsearch")
    refresh = sum(map(min, zip(*(seals(own, trees) for _ in range(3)))))
    print("refresh %8.1f ms  %5.2f times reading  %5.2f times serde" % (refresh, refresh * 1000 / read, refresh * 1000 / serde))


main()
