#!/usr/bin/env bash
# Times 100,000 resolves of a check command with ten arguments, half of whose values are macros of the host, the service and
# the command. They are to take below 0.5 s.
set -eu
. "$(dirname "${BASH_SOURCE[0]}")/program.sh"

build_program 'site_base site_model command_macros' <<'RATTLE'
//! Resolves a command many times, and prints how long it took.
#![tactic(auto)]

use command_macros::resolve;
use site_base::{Num, OutOfMemory, Row, Text, Tree};
use site_model::{CheckSpec, CommandSpec, Names, Site};
use std::alloc::Global;
use std::io;
use std::time::Instant;

/// The arguments: ten keys in byte order, each with a text.
const ARGUMENTS: [(&str, &str); 10] = [
    ("-C", "$http_certificate$"),
    ("-H", "$http_vhost$"),
    ("-I", "$http_address$"),
    ("-a", "$http_user$:$http_password$"),
    ("-c", "5"),
    ("-e", "HTTP/1.1 200"),
    ("-p", "$http_port$"),
    ("-t", "10"),
    ("-u", "/status"),
    ("-w", "$http_warn$"),
];

/// Their values: custom variables of the service in byte order.
const VARS: [(&str, &str); 6] = [
    ("http_address", "$address$"),
    ("http_certificate", "30"),
    ("http_password", "secret"),
    ("http_port", "8443"),
    ("http_user", "icinga"),
    ("http_vhost", "www.example.org"),
];

fn pair(alloc: Global, key: &str, value: Tree) -> Result<(Text, Tree), OutOfMemory> {
    let key = Text::copy_of(alloc, key)?;
    Ok((key, value))
}

fn text(alloc: Global, value: &str) -> Result<Tree, OutOfMemory> {
    let value = Text::copy_of(alloc, value)?;
    Ok(Tree::Str(value))
}

fn texts(alloc: Global, pairs: &[(&str, &str)]) -> Result<Tree, OutOfMemory> {
    let mut made = Vec::new(alloc);
    for (key, value) in pairs {
        made.push(pair(alloc, key, text(alloc, value)?)?)?;
    }
    Ok(Tree::Dict(made))
}

fn only(alloc: Global, key: &str, value: Tree) -> Result<Vec<(Text, Tree)>, OutOfMemory> {
    let mut pairs = Vec::new(alloc);
    pairs.push(pair(alloc, key, value)?)?;
    Ok(pairs)
}

fn command(alloc: Global) -> Result<CommandSpec, OutOfMemory> {
    let mut words = Vec::new(alloc);
    words.push(text(alloc, "/usr/lib/nagios/plugins/check_http")?)?;
    let mut pairs = only(alloc, "arguments", texts(alloc, &ARGUMENTS)?)?;
    pairs.push(pair(alloc, "command", Tree::List(words))?)?;
    let mut vars = only(alloc, "http_warn", Tree::Number(Num::of(2500)))?;
    vars.push(pair(alloc, "http_x", Tree::Bool(true))?)?;
    pairs.push(pair(alloc, "vars", Tree::Dict(vars))?)?;
    Ok(CommandSpec {
        name: Text::copy_of(alloc, "http")?,
        tree: Tree::Dict(pairs),
    })
}

fn site(alloc: Global) -> Result<Site, OutOfMemory> {
    let mut host = CheckSpec::plain(Text::copy_of(alloc, "h")?, None);
    host.tree = Tree::Dict(only(alloc, "address", text(alloc, "192.0.2.7")?)?);
    let mut service = CheckSpec::plain(Text::copy_of(alloc, "h!s")?, Some(0));
    service.tree = Tree::Dict(only(alloc, "vars", texts(alloc, &VARS)?)?);
    let mut checkables = Row::new(alloc);
    checkables.push(host)?;
    checkables.push(service)?;
    let mut site = Site::plain(alloc, checkables, Names::new(alloc));
    site.commands.push(command(alloc)?)?;
    Ok(site)
}

/// How many bytes the words of so many resolves have.
fn resolve_all(alloc: Global, site: &Site, count: u32) -> u64 {
    let mut bytes: u64 = 0;
    for _ in 0..count {
        if let Ok(words) = resolve(alloc, site, 1) {
            for word in words.as_slice() {
                bytes = bytes.wrapping_add(word.len() as u64);
            }
        }
    }
    bytes
}

fn main(rt: HostRuntime) -> io::Result<()> {
    let Ok(site) = site(rt.alloc()) else {
        return Ok(());
    };
    for count in [25_000, 50_000, 100_000] {
        let start = Instant::now(&rt)?;
        let bytes = resolve_all(rt.alloc(), &site, count);
        let time = start.elapsed(&rt)?.as_micros();
        println!(rt; "{count} resolves: {bytes} bytes of words in {time} us")?;
    }
    Ok(())
}
RATTLE

"$program"
