#!/usr/bin/env bash
# Times `duplicates` and `references` over 50,000 to 200,000 objects: hosts with a service and a notification each, none of which
# is told. Wanted: 100,000 objects below 0.1 s for both, and less than 2.3 times as long for twice as many.
set -eu
. "$(dirname "${BASH_SOURCE[0]}")/program.sh"

build_program 'site_base time_range object_types site_model case_objects conf_check' <<'RATTLE'
//! Checks the objects of a site, and prints how long it took.
#![tactic(auto)]

use case_objects::are_placed;
use conf_check::{duplicates, references};
use site_base::{ItemNo, OutOfMemory, Place, Row, TargetNo, Text, Texts, Tree};
use site_model::Object;
use std::alloc::Global;
use std::io;
use std::time::Instant;

type Pairs = Vec<(Text, Tree)>;

fn numbered(alloc: Global, word: &str, number: u32) -> Result<Text, OutOfMemory> {
    let mut name = Text::copy_of(alloc, word)?;
    name.push_decimal(u64::from(number))?;
    Ok(name)
}

fn set(alloc: Global, pairs: &mut Pairs, key: &str, value: Tree) -> Result<(), OutOfMemory> {
    pairs.push((Text::copy_of(alloc, key)?, value))?;
    Ok(())
}

fn list_of(alloc: Global, word: &str) -> Result<Tree, OutOfMemory> {
    let mut items = Vec::new(alloc);
    items.push(Tree::Str(Text::copy_of(alloc, word)?))?;
    Ok(Tree::List(items))
}

fn object(alloc: Global, kind: &str, name: Text, line: u32, pairs: Pairs) -> Result<Object, OutOfMemory> {
    Ok(Object {
        kind: Text::copy_of(alloc, kind)?,
        name,
        place: Place { file: 0, line, col: 1 },
        number: ItemNo { item: line, target: TargetNo { item: 0, host: 0, key: 0 }, key: 0 },
        builtin: false,
        tree: Tree::Dict(pairs),
    })
}

fn plain(alloc: Global, kind: &str, name: &str) -> Result<Object, OutOfMemory> {
    object(alloc, kind, Text::copy_of(alloc, name)?, 1, Vec::new(alloc))
}

fn host(alloc: Global, number: u32) -> Result<Object, OutOfMemory> {
    let mut pairs = Vec::new(alloc);
    set(alloc, &mut pairs, "address", Tree::Str(numbered(alloc, "10.0.0.", number)?))?;
    set(alloc, &mut pairs, "check_command", Tree::Str(Text::copy_of(alloc, "hostalive")?))?;
    set(alloc, &mut pairs, "groups", list_of(alloc, "linux-servers")?)?;
    set(alloc, &mut pairs, "name", Tree::Str(numbered(alloc, "host-", number)?))?;
    object(alloc, "Host", numbered(alloc, "host-", number)?, number, pairs)
}

fn service(alloc: Global, number: u32) -> Result<Object, OutOfMemory> {
    let mut name = numbered(alloc, "host-", number)?;
    name.push_str("!ping4")?;
    let mut pairs = Vec::new(alloc);
    set(alloc, &mut pairs, "check_command", Tree::Str(Text::copy_of(alloc, "hostalive")?))?;
    set(alloc, &mut pairs, "host_name", Tree::Str(numbered(alloc, "host-", number)?))?;
    set(alloc, &mut pairs, "name", Tree::Str(Text::copy_of(alloc, "ping4")?))?;
    object(alloc, "Service", name, number, pairs)
}

fn notification(alloc: Global, number: u32) -> Result<Object, OutOfMemory> {
    let mut name = numbered(alloc, "host-", number)?;
    name.push_str("!ping4!mail")?;
    let mut pairs = Vec::new(alloc);
    set(alloc, &mut pairs, "command", Tree::Str(Text::copy_of(alloc, "mail")?))?;
    set(alloc, &mut pairs, "host_name", Tree::Str(numbered(alloc, "host-", number)?))?;
    set(alloc, &mut pairs, "name", Tree::Str(Text::copy_of(alloc, "mail")?))?;
    set(alloc, &mut pairs, "service_name", Tree::Str(Text::copy_of(alloc, "ping4")?))?;
    set(alloc, &mut pairs, "users", list_of(alloc, "icingaadmin")?)?;
    object(alloc, "Notification", name, number, pairs)
}

/// The objects of so many hosts with a service and a notification each, and what they name.
fn site(alloc: Global, hosts: u32) -> Result<Vec<Object>, OutOfMemory> {
    let mut objects = Vec::new(alloc);
    objects.push(plain(alloc, "CheckCommand", "hostalive")?)?;
    objects.push(plain(alloc, "NotificationCommand", "mail")?)?;
    objects.push(plain(alloc, "User", "icingaadmin")?)?;
    objects.push(plain(alloc, "HostGroup", "linux-servers")?)?;
    for number in 0..hosts {
        objects.push(host(alloc, number)?)?;
    }
    for number in 0..hosts {
        objects.push(service(alloc, number)?)?;
    }
    for number in 0..hosts {
        objects.push(notification(alloc, number)?)?;
    }
    Ok(objects)
}

fn files(alloc: Global) -> Result<Texts, OutOfMemory> {
    let mut files = Row::new(alloc);
    files.push(Text::copy_of(alloc, "icinga2.conf")?)?;
    Ok(files)
}

fn main(rt: HostRuntime) -> io::Result<()> {
    for hosts in [16_667, 33_333, 66_667] {
        let Ok(objects) = site(rt.alloc(), hosts) else {
            continue;
        };
        let Ok(files) = files(rt.alloc()) else {
            continue;
        };
        if !are_placed(&objects, &files) {
            continue;
        }
        let start = Instant::now(&rt)?;
        let twice = match duplicates(rt.alloc(), &objects, &files) {
            Ok(faults) => faults.len(),
            Err(_) => 1_000_000,
        };
        let first = start.elapsed(&rt)?.as_micros();
        let start = Instant::now(&rt)?;
        let missing = match references(rt.alloc(), &objects) {
            Ok(faults) => faults.len(),
            Err(_) => 1_000_000,
        };
        let second = start.elapsed(&rt)?.as_micros();
        let count = objects.len();
        println!(rt; "{count} objects: {twice} duplicates in {first} us, {missing} missing in {second} us")?;
    }
    Ok(())
}
RATTLE

"$program"
