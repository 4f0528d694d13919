#!/usr/bin/env bash
# Times a Book to which 25,000 to 100,000 downtimes are added, with ends that rise, fall or are mixed, and which then
# meets a result at which half of them are past. Rising and falling ends are to take below 100 ms at 100,000.
set -eu
. "$(dirname "${BASH_SOURCE[0]}")/program.sh"

build_program 'site_base downtime_book' <<'RATTLE'
//! Adds downtimes to a book, lets half of them become past, and prints how long it took.
#![tactic(auto)]

use downtime_book::Book;
use site_base::{Moment, OutOfMemory};
use std::io;
use std::time::Instant;

#[derive(Clone, Copy, Debug)]
enum Order {
    Rising,
    Falling,
    Mixed,
}

/// When a downtime ends, between 1,000,000 and 2,000,000.
fn end_of(order: Order, number: u32, count: u32) -> u64 {
    let step = u64::from(1_000_000 / count.max(1));
    let place = match order {
        Order::Rising => number,
        Order::Falling => count.saturating_sub(number),
        Order::Mixed => number.wrapping_mul(2_654_435_769) % count.max(1),
    };
    u64::from(place).saturating_mul(step).saturating_add(1_000_000)
}

fn add_all(book: &mut Book, order: Order, count: u32) -> Result<(), OutOfMemory> {
    for number in 0..count {
        let start = Moment::of(u64::from(number));
        let end = Moment::of(end_of(order, number, count));
        if let (Some(start), Some(end)) = (start, end) {
            book.add(u64::from(number), start, end, true, 0)?;
        }
    }
    Ok(())
}

/// Brings a result at this second, if the book takes one then.
fn bring_result(book: &mut Book, second: u64) {
    if let Some(moment) = Moment::of(second)
        && book.latest() <= moment
    {
        book.on_result(moment, false);
    }
}

fn main(rt: HostRuntime) -> io::Result<()> {
    for order in [Order::Rising, Order::Falling, Order::Mixed] {
        for count in [25_000, 50_000, 100_000] {
            let mut book = Book::new(rt.alloc());
            let start = Instant::now(&rt)?;
            let added = add_all(&mut book, order, count).is_ok();
            let adding = start.elapsed(&rt)?.as_micros();
            let start = Instant::now(&rt)?;
            bring_result(&mut book, 1_500_000);
            let dropping = start.elapsed(&rt)?.as_micros();
            let kept = book.len();
            println!(rt; "{order:?}, {count} downtimes: added ({added}) in {adding} us, {kept} kept after {dropping} us")?;
        }
    }
    Ok(())
}
RATTLE

"$program"
