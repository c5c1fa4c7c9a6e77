#!/usr/bin/env python3
"""Times cells that are allocated, freed and allocated again: bench/cells_time.py. 12,500 to 100,000 cells of mixed sizes, freed in rising,
falling and mixed order. Prints milliseconds. No gate runs it."""
import os
import sys

sys.path.insert(0, os.path.dirname(os.path.abspath(__file__)))
import trial

USES = ["nt_bytes", "hive_model", "hive_cells", "cell_tables"]

PROGRAM = """#![tactic(auto)]

ghost use Rattle.std.specs.Prelude.{◌≤◌};

use anyhow::{Result, bail};
use hive_cells::{OpenHeap, read_cells};
use nt_bytes::Bytes;
use std::alloc::Global;
use std::time::Instant;

/// The payload of the i-th cell, from 4 to 180 bytes.
fn payload(i: u32) -> u32
    ensures { result ≤ 180 }
{
    4 + i.wrapping_mul(2_654_435_761) / 65_536 % 177
}

fn fill(alloc: Global, heap: &mut OpenHeap, places: &mut Vec<u32>, count: u32) -> Result<()> {
    for i in 0..count {
        let Some(at) = heap.alloc(alloc, payload(i))? else {
            bail!("no room");
        };
        places.push(at)?;
    }
    Ok(())
}

/// The i-th place in an order: rising, falling, or in steps that meet each place once.
fn place(order: u32, i: usize, count: usize) -> usize {
    if order == 0 || count == 0 {
        return i;
    }
    if order == 1 {
        return count.wrapping_sub(1).wrapping_sub(i);
    }
    i.wrapping_mul(7_919) % count
}

/// Frees the cell at an offset, where one is.
fn release(heap: &mut OpenHeap, at: u32) {
    if let Ok(_) = heap.payload(at) {
        heap.free(at);
    }
}

fn release_all(heap: &mut OpenHeap, places: &[u32], order: u32) {
    for i in 0..places.len() {
        if let Some(at) = places.get(place(order, i, places.len())) {
            release(heap, *at);
        }
    }
}

fn once(rt: &HostRuntime, order: u32, count: u32) -> Result<()> {
    let alloc = rt.alloc();
    let Ok(cells) = read_cells(alloc, Bytes::new(alloc)) else {
        bail!("no cells");
    };
    let mut heap = cells.opened(alloc)?;
    let mut places = Vec::new(alloc);
    let start = Instant::now(rt)?;
    fill(alloc, &mut heap, &mut places, count)?;
    let filled = start.elapsed(rt)?.as_millis();
    let start = Instant::now(rt)?;
    release_all(&mut heap, &places, order);
    let freed = start.elapsed(rt)?.as_millis();
    let mut places = Vec::new(alloc);
    let start = Instant::now(rt)?;
    fill(alloc, &mut heap, &mut places, count)?;
    let again = start.elapsed(rt)?.as_millis();
    let size = heap.bytes().len();
    println!(rt; "{count} cells in order {order}: allocated in {filled} ms, freed in {freed} ms, again in {again} ms; {size} bytes")?;
    Ok(())
}

fn main(rt: HostRuntime) -> Result<()> {
    for order in 0..3_u32 {
        for count in [12_500, 25_000, 50_000, 100_000] {
            once(&rt, order, count)?;
        }
    }
    Ok(())
}
"""

sys.exit(trial.run("cells_time", USES, PROGRAM))
