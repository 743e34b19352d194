#!/usr/bin/env python3
"""Times calls of single crates: `bench/small.py [NAME..]`, or all of these.

    carries    `Cache::carry` over 4,096 cached rules and a change of one row, and `Cache::raise`
    memory     the peak memory of a plan, with all switches' tables, and of 64 versions of
               one plan at a controller
    networks   `read_net` over a large network, and over files of 16 MB that are refused
    routes     `Database::route` over a ring, a star, a fat tree, a full mesh and a random network
    rules      the reading of a policy of 2,000 rows, and the list of its 4,096 words
    schedules  `read_schedule` over 100,000 rows, for a network of 64 switches
    switches   `Switch::admit`, `pass` and `receive`, with tables of 512 partitions
    widen      the word of a cache rule, after 0, 100 and 1,000 earlier rules

For each it makes a small program over copies of the crates that it uses, in its own folder,
lets `rt run` prove and build it, and runs it again and again. It needs `rt` on the path, and for
the memory GNU time.
"""
import random
import resource
import shutil
import subprocess
import sys
import tempfile
import time
from pathlib import Path

from plans import in_512_parts, network, subnets

HOME = Path(__file__).resolve().parent.parent
sys.path.append(str(HOME / "checks"))
from crates import below, libraries  # noqa: E402


# ---- programs


def build(folder, name, uses, main, args=()):
    """The path of the program `name` with this text of its `main.rt`, which is run once with these
    arguments."""
    own = [used for used in uses if used in libraries()]
    crates = sorted({*own}.union(*map(below, own)))
    lines = [f"{crate}: {' '.join(libraries()[crate])}\n" for crate in crates]
    for crate in crates:
        source, copy = HOME / "crates" / crate, folder / "crates" / crate
        shutil.copytree(source, copy, ignore=shutil.ignore_patterns("out"), dirs_exist_ok=True)
    (folder / "crates.txt").write_text("".join([*lines, f"{name}: {' '.join(uses)}\n"]))
    shutil.copy(HOME / "HANDLES", folder)
    crate = folder / "crates" / name
    (crate / "src").mkdir(parents=True, exist_ok=True)
    (crate / "src/main.rt").write_text(main)
    command = ["rt", "run", "--", *args]
    done = subprocess.run(command, cwd=crate, capture_output=True, text=True)
    if done.returncode != 0:
        sys.exit(done.stdout + done.stderr)
    return crate / "out" / name


def seconds(program, *args):
    """How long a run takes."""
    begun = time.monotonic()
    subprocess.run([program, *map(str, args)], stdout=subprocess.DEVNULL, check=True)
    return time.monotonic() - begun


def write(folder, **texts):
    """Writes each text to the file of its name: p_csv is p.csv."""
    for name, text in texts.items():
        (folder / name.replace("_", ".")).write_text(text)


# ---- the memory of plans

MEMORY = """//! Holds a plan, and what is made of it.
#![tactic(auto)]

use controller::{Controller, Plan, compile, tables_of};
use ctrl_msg::Body;
use net_file::{Net, read_net};
use policy_file::read_policy;
use std::alloc::Global;
use std::{env, fs};

fn hold_tables(alloc: Global, plan: &Plan, switches: u32) -> anyhow::Result<usize> {
    let mut all = Vec::new(alloc);
    for s in 0..switches {
        all.push(tables_of(alloc, plan, 1, s)?)?;
    }
    Ok(all.len())
}

// What the switch tells of the version, where both are there.
fn tell(
    alloc: Global,
    controller: &mut Controller,
    s: u32,
    version: u32,
    stamped: bool,
) -> anyhow::Result<usize> {
    if s >= controller.switches() || version < 1 || version > controller.marks().count() {
        return Ok(0);
    }
    let sends = if stamped {
        controller.hear(alloc, &Body::Stamped { switch: s, boot: 1, version })?
    } else {
        controller.hear(alloc, &Body::Installed { switch: s, boot: 1, version })?
    };
    Ok(sends.items().len())
}

fn update(alloc: Global, controller: &mut Controller, version: u32) -> anyhow::Result<usize> {
    let mut acts = 0usize;
    for s in 0..controller.switches() {
        acts = acts.saturating_add(tell(alloc, controller, s, version, false)?);
    }
    for s in 0..controller.switches() {
        acts = acts.saturating_add(tell(alloc, controller, s, version, true)?);
    }
    Ok(acts)
}

fn main(rt: HostRuntime) -> anyhow::Result<()> {
    let alloc = rt.alloc();
    let net = read_net(alloc, &fs::read(&rt, "FOLDER/n.toml")?)?;
    let policy = read_policy(alloc, &fs::read(&rt, "FOLDER/p.csv")?)?;
    let plan = compile(alloc, &policy, &net)?;
    let mut kept = plan.hosted().len();
    for arg in env::args(&rt)?.skip(1) {
        if arg.as_str() == "tables" {
            kept = hold_tables(alloc, &plan, net.switches.items().len() as u32)?;
        } else if arg.as_str() == "updates" {
            let mut controller = Controller::begin(alloc, &net, plan.clone()?)?;
            for version in 2..65u32 {
                if controller.submit(alloc, plan.clone()?).is_ok() {
                    kept = kept.saturating_add(update(alloc, &mut controller, version)?);
                }
            }
            kept = controller.marks().count() as usize;
        }
    }
    println!(rt; "{kept}")?;
    Ok(())
}
"""


def peak(program, arg):
    command = ["/usr/bin/time", "-q", "-f", "%M %e", program, arg]
    done = subprocess.run(command, capture_output=True, text=True, check=True)
    kilobytes, spent = done.stderr.split()[-2:]
    return f"{int(kilobytes) / 1024:6.1f} MiB, {float(spent):.3f} s, {done.stdout.strip()}"


def memory(folder):
    """A policy in 512 partitions that are at two of 64 switches each, and one of 2,000 rows on 16
    switches."""
    write(folder, p_csv=in_512_parts(), n_toml=network(3, 1, 64))
    uses = ["anyhow", "controller", "ctrl_msg", "net_file", "policy_file"]
    program = build(folder, "plan_memory", uses, MEMORY.replace("FOLDER", str(folder)), ["plan"])
    print("512 partitions:                  ", peak(program, "plan"))
    print("512 partitions, 64 tables:       ", peak(program, "tables"))
    write(folder, p_csv=subnets(random.Random(2000), 2000), n_toml=network(32, 1, 16))
    print("2,000 rows:                      ", peak(program, "plan"))
    print("2,000 rows, 64 versions:         ", peak(program, "updates"))


# ---- the reading of networks

NETWORKS = """//! Reads a network file.
#![tactic(auto)]

use net_file::{NetError, read_net};
use std::{env, fs};

fn main(rt: HostRuntime) -> anyhow::Result<()> {
    for name in env::args(&rt)?.skip(1) {
        let bytes = fs::read(&rt, &name)?;
        match read_net(rt.alloc(), &bytes) {
            Ok(net) => println!(rt; "{} switches", net.switches.items().len())?,
            Err(NetError::Refused(why)) => {
                println!(rt; "code {} row {}", why.refusal.code(), why.row)?;
            }
            Err(NetError::NoMemory) => println!(rt; "no memory")?,
        }
    }
    Ok(())
}
"""


def large_net():
    lines = []
    for k in range(64):
        ports = k if k < 63 else ""
        lines += ["[[switch]]", f'name = "s{k}"', f"ports = [{ports}]", "authority = 8192"]
    for k, j in [(k, j) for k in range(64) for j in range(k)][:256]:
        lines += ["[[link]]", f'ends = ["s{k}", "s{j}"]']
    return "\n".join(lines) + "\n"


def one_switch(item, count, last):
    """A network of one switch, with a long list of ports."""
    return f'[[switch]]\nname = "a"\nports = [{item * count}{last}]\n'


NETWORK_CASES = {
    "64 switches, 256 links": large_net,
    "8,000,001 ports of 2 bytes": lambda: one_switch("1,", 8_000_000, "1"),
    "4,000,001 ports of 4": lambda: one_switch("40, ", 4_000_000, "40"),
    "420,001 texts": lambda: one_switch('"a long name in the place of a port", ', 420_000, '""'),
    "5,000,001 empty switches": lambda: "switch = [" + "{}," * 5_000_000 + "{}]\n",
}


def processor_seconds():
    usage = resource.getrusage(resource.RUSAGE_CHILDREN)
    return usage.ru_utime + usage.ru_stime


def networks(folder):
    """What each file is answered, and the seconds of the processor with reading the file."""
    program = build(folder, "net_times", ["anyhow", "net_file"], NETWORKS)
    path = folder / "net.toml"
    for name, text in NETWORK_CASES.items():
        path.write_text(text())
        begun = processor_seconds()
        done = subprocess.run([program, path], stdout=subprocess.PIPE, check=True, text=True)
        print(f"{name:26} {done.stdout.strip():16} {processor_seconds() - begun:.3f} s")


# ---- routes

ROUTES = """//! Asks for routes again and again.
#![tactic(auto)]

use failover::{Database, DownSet};
use policy_rules::Targets;
use std::env;

fn main(rt: HostRuntime) -> anyhow::Result<()> {
    let mut near = [0u64; 64];
    let mut more = [0u64; 2];
    for (place, arg) in env::args(&rt)?.skip(1).enumerate() {
        let number = arg.parse::<u64>()?;
        if place < 64 {
            near[place] = number;
        } else if place < 66 {
            more[place - 64] = number;
        }
    }
    let [turns, last] = more;
    let base = Database::begin(&near, 64);
    let down = DownSet::empty();
    let mut switches = 0u64;
    if let Some(targets) = Targets::new(&[u32::try_from(last)?]) {
        for turn in 0..turns {
            let from = (turn % 64) as u32;
            if let Some(route) = base.route(from, &targets, near[from as usize], &down) {
                switches = switches.wrapping_add(route.items().len() as u64);
            }
        }
    }
    println!(rt; "{switches}")?;
    Ok(())
}
"""


def masks(size, links):
    near = [0] * 64
    for one, other in links:
        near[one] |= 1 << other
        near[other] |= 1 << one
    return near, size - 1


def ring():
    return masks(64, [(k, (k + 1) % 64) for k in range(64)])


def star():
    return masks(64, [(0, k) for k in range(1, 64)])


def fat_tree(ports=6):
    half = ports // 2
    cores = half * half
    links = []
    for pod in range(ports):
        first = cores + pod * ports
        for upper in range(half):
            links += [(first + upper, upper * half + k) for k in range(half)]
            links += [(first + upper, first + half + k) for k in range(half)]
    return masks(cores + ports * ports, links)


def pairs():
    return [(k, j) for k in range(64) for j in range(k)]


ROUTE_CASES = {
    "ring": ring,
    "star": star,
    "fat tree": fat_tree,
    "mesh": lambda: masks(64, pairs()),
    "256 random links": lambda: masks(64, random.Random(2010).sample(pairs(), 256)),
}


def routes(folder, turns=2_000_000):
    """The mean time of a route from each of 64 switches to the last one."""
    program = build(folder, "route_turns", ["anyhow", "failover", "policy_rules"], ROUTES, ["0"])
    for name, case in ROUTE_CASES.items():
        near, last = case()
        spent = seconds(program, *near, turns, last) - seconds(program, *near, 0, last)
        print(f"{name:16} {spent / turns * 1e6:.2f} microseconds a route")


# ---- policies and their rules

RULES = """//! Reads a policy, and lists its rules, again and again.
#![tactic(auto)]

use policy_file::read_policy;
use policy_rules::to_rules;
use std::{env, fs};

fn main(rt: HostRuntime) -> anyhow::Result<()> {
    let bytes = fs::read(&rt, "policy.csv")?;
    let mut turns = [0u64; 2];
    for (place, arg) in env::args(&rt)?.skip(1).enumerate() {
        if place < 2 {
            turns[place] = arg.parse::<u64>()?;
        }
    }
    let [reads, lists] = turns;
    let mut rules = 0u64;
    for _ in 0..reads {
        if let Ok(policy) = read_policy(rt.alloc(), &bytes) {
            rules = rules.wrapping_add(policy.rows().len() as u64);
        }
    }
    if let Ok(policy) = read_policy(rt.alloc(), &bytes) {
        for _ in 0..lists {
            if let Ok(list) = to_rules(rt.alloc(), &policy) {
                rules = rules.wrapping_add(list.len() as u64);
            }
        }
    }
    println!(rt; "{rules}")?;
    Ok(())
}
"""


def wide_policy():
    """2,000 rows, of which 1,048 have three words each."""
    ports = ["1-4" if k < 1048 else "any" for k in range(2000)]
    rows = [f"{k},10.{k % 256}.0.0/16,any,{ports[k]},443,tcp,drop" for k in range(2000)]
    return "\n".join(["priority,src,dst,sport,dport,proto,action", *rows]) + "\n"


def rules(folder, turns=500):
    write(folder, policy_csv=wide_policy())
    text = RULES.replace("policy.csv", str(folder / "policy.csv"))
    uses = ["anyhow", "policy_file", "policy_rules"]
    program = build(folder, "rule_turns", uses, text, ["0", "0"])
    none = seconds(program, 0, 0)
    for name, calls in (("2,000 rows read:   ", (turns, 0)), ("4,096 words listed:", (0, turns))):
        print(f"{name} {(seconds(program, *calls) - none) / turns * 1e3:.2f} ms")


# ---- the reading of schedules

SCHEDULES = """//! Reads a schedule again and again.
#![tactic(auto)]

use net_file::read_net;
use schedule::read_schedule;
use std::alloc::Global;
use std::env;
use std::fmt::Write;

// A network of 64 switches, the last of which is switch73.
fn network(alloc: Global) -> anyhow::Result<String> {
    let mut text = String::new(alloc);
    write!(text, "switch = [")?;
    for number in 10..74u32 {
        write!(text, "{{ name = \\"switch{number}\\" }}, ")?;
    }
    write!(text, "]")?;
    Ok(text)
}

fn main(rt: HostRuntime) -> anyhow::Result<()> {
    let alloc = rt.alloc();
    let args = env::args(&rt)?;
    let mut row = String::new(alloc);
    let mut turns = 0u64;
    for (place, arg) in args.skip(1).enumerate() {
        if place == 0 {
            row.push_str(arg.as_str())?;
        } else {
            turns = arg.parse::<u64>()?;
        }
    }
    let net = network(alloc)?;
    let net = read_net(alloc, net.as_bytes())?;
    let mut text = String::new(alloc);
    writeln!(text, "event,arguments")?;
    for _ in 0..100_000u32 {
        writeln!(text, "{row}")?;
    }
    let mut events = 0u64;
    for _ in 0..turns {
        events = events.wrapping_add(read_schedule(alloc, text.as_bytes(), &net, 1)?.len() as u64);
    }
    println!(rt; "{events}")?;
    Ok(())
}
"""

SCHEDULE_ROWS = {
    "packets": "packet,switch73,10.20.30.40,192.168.100.200,40000,443,tcp",
    "hops": "hop,99999",
    "drains": "drain",
}


def schedules(folder, turns=20):
    """Schedules whose rows are all packets at the last switch, all hops, and all drains."""
    uses, first = ["anyhow", "net_file", "schedule"], SCHEDULE_ROWS["drains"]
    program = build(folder, "schedule_turns", uses, SCHEDULES, [first, "0"])
    for name, row in SCHEDULE_ROWS.items():
        spent = seconds(program, row, turns) - seconds(program, row, 0)
        print(f"{name:8} {spent / turns:.3f} s")


# ---- the calls of a switch

SWITCHES = """//! Hands packets to a switch again and again.
#![tactic(auto)]
ghost use Rattle.std.specs.Prelude.{◌≡◌};
ghost use Rattle.net_file.specs.Exports.{IsNet};
ghost use Rattle.switch_table.specs.Exports.{AreSoundSwitchTables};

use controller::{compile, tables_of};
use ctrl_msg::SharedTables;
use failover::{Database, DownSet, Route};
use five_tuple::{Fields, Header};
use net_file::{Net, read_net};
use policy_file::read_policy;
use policy_rules::{Leg, Targets};
use std::alloc::{AllocError, Global};
use std::{env, fs};
use switch_core::{Arriving, Forwarding, Onward, Switch, switch_laws};

// A header of one of the 512 blocks of destinations.
fn header(turn: u32) -> Header {
    Header::pack(&Fields {
        src: turn,
        dst: turn.wrapping_mul(0x9e37_79b9),
        sport: 5000,
        dport: 80,
        proto: 6,
    })
}

// How many packets of so many that come in are decided at once.
fn admit_all(switch: &mut Switch, turns: u32) -> u32 {
    let mut decided = 0u32;
    for turn in 0..turns {
        if switch.holds_version(switch.stamp()) {
            if let Some(Forwarding::Decided { .. }) = switch.admit(&header(turn)) {
                decided = decided.wrapping_add(1);
            }
        }
    }
    decided
}

// How many packets of so many at the beginning of the route move on along it, where every second
// one finds no link.
fn pass_all(switch: &mut Switch, route: &Route, near: u64, turns: u32) -> u32 {
    let mut moved = 0u32;
    for turn in 0..turns {
        let links = if turn & 1 == 0 { near } else { 0 };
        if switch.serves() && route.items().get(0).copied() == Some(switch.number()) {
            if let Onward::Next(_) = switch.pass(route, 0, links) {
                moved = moved.wrapping_add(1);
            }
        }
    }
    moved
}

// How many packets of so many at the route's end, for a version that isn't held, are decided.
fn receive_all(switch: &mut Switch, route: &Route, turns: u32) -> u32 {
    let mut decided = 0u32;
    let leg = Leg::Seek { version: 2, partition: 0 };
    for turn in 0..turns {
        if switch.serves()
            && switch.holds_version(switch.stamp())
            && !switch.holds_version(2)
            && route.items().get(0).copied() == Some(switch.number())
            && route.items().get(1).is_none()
        {
            let header = header(turn);
            let arriving = Arriving { header: &header, ingress: 1, leg, route, place: 0 };
            if let Forwarding::Decided { .. } = switch.receive(arriving) {
                decided = decided.wrapping_add(1);
            }
        }
    }
    decided
}

// The route from the first switch to this one.
fn route_to(base: &Database, target: u32, near: u64) -> Option<Route> {
    let targets = Targets::new(&[target])?;
    base.route(0, &targets, near, &DownSet::empty())
}

// The links of each switch.
fn links_near(net: &Net) -> [u64; 64]
    requires { IsNet net.now }
{
    let mut near = [0u64; 64];
    for s in 0..64u32 {
        near[s as usize] = net.links_of(s);
    }
    near
}

// The first switch, with the tables of version 1.
fn first_switch(alloc: Global, tables: SharedTables, base: &[u64; 64]) -> Result<Switch, AllocError>
    requires sound { AreSoundSwitchTables tables }
    requires version { tables.version ≡ 1 }
{
    switch_laws();
    Switch::begin(alloc, 0, 256, tables, Database::begin(base, 64))
}

// As many calls of each kind as the arguments say.
fn calls(rt: &HostRuntime) -> anyhow::Result<[u32; 3]> {
    let mut turns = [0u32; 3];
    for (place, arg) in env::args(rt)?.skip(1).enumerate() {
        if place < 3 {
            turns[place] = arg.parse::<u32>()?;
        }
    }
    Ok(turns)
}

fn main(rt: HostRuntime) -> anyhow::Result<()> {
    let alloc = rt.alloc();
    let net = read_net(alloc, &fs::read(&rt, "FOLDER/n.toml")?)?;
    let policy = read_policy(alloc, &fs::read(&rt, "FOLDER/p.csv")?)?;
    let near = links_near(&net);
    let plan = compile(alloc, &policy, &net)?;
    let tables = SharedTables::new(alloc, tables_of(alloc, &plan, 1, 0)?)?;
    let mut switch = first_switch(alloc, tables, &near)?;
    let [admitted, passing, received] = calls(&rt)?;
    let base = Database::begin(&near, 64);
    let mut counted = admit_all(&mut switch, admitted);
    if let Some(route) = route_to(&base, 1, near[0]) {
        counted = counted.wrapping_add(pass_all(&mut switch, &route, near[0], passing));
    }
    if let Some(route) = route_to(&base, 0, near[0]) {
        counted = counted.wrapping_add(receive_all(&mut switch, &route, received));
    }
    println!(rt; "{counted}")?;
    Ok(())
}
"""


def switches(folder, turns=2_000_000):
    """The mean time of a call."""
    links = "".join(f'[[link]]\nends = ["s{s}", "s{(s + 1) % 64}"]\n' for s in range(64))
    write(folder, p_csv=in_512_parts(), n_toml=network(3, 1, 64) + links)
    uses = ["anyhow", "controller", "ctrl_msg", "failover", "five_tuple", "net_file"]
    uses += ["policy_file", "policy_rules", "switch_core", "switch_table"]
    text = SWITCHES.replace("FOLDER", str(folder))
    program = build(folder, "switch_turns", uses, text, ["0", "0", "0"])
    none = seconds(program, 0, 0, 0)
    for place, (name, many) in enumerate((("admit", 1), ("pass", 100), ("receive", 1))):
        calls = [0, 0, 0]
        calls[place] = many * turns
        spent = (seconds(program, *calls) - none) / calls[place] * 1e9
        print(f"{name:7}, 512 partitions, 64 switches in a ring: {spent:8.1f} ns a packet")


# ---- the words of cache rules

WIDEN = """#![tactic(auto)]

use anyhow::Result;
use cache_maker::widen;
use five_tuple::{Fields, Header};
use policy_rules::{Action, Rule, first_hit};
use std::alloc::AllocError;
use ternary::Word;

fn main(rt: HostRuntime) -> Result<()> {
    let mut rules = Vec::new(rt.alloc());
    for row in 0..ROWSu32 {
        // Tcp from a block of 256 addresses to another one, as in a list of access rules.
        let scattered = row.wrapping_mul(2654435761);
        let value = (u128::from(0x0a000000 | (scattered & 0x3ff00)) << 72)
            | (u128::from(0x0a000000 | ((scattered >> 14) & 0x3ff00)) << 40)
            | 6;
        let mask = (0xffffff00u128 << 72) | (0xffffff00u128 << 40) | 0xff;
        if let Some(word) = Word::new(value, mask) {
            rules.push(Rule {
                word,
                rank: row,
                rule: Some(row),
                action: Action::Drop,
            })
            .map_err(AllocError::from)?;
        }
    }
    rules.push(Rule {
        word: Word::any(),
        rank: ROWS,
        rule: None,
        action: Action::Drop,
    })
    .map_err(AllocError::from)?;
    let mut fixed = 0u32;
    for turn in 0..TURNSu32 {
        let header = Header::pack(&Fields {
            src: 0x0a000000 | (turn.wrapping_mul(747796405) & 0x3ffff),
            dst: 0x0a000000 | (turn.wrapping_mul(2891336453) & 0x3ffff),
            sport: 5000,
            dport: 80,
            proto: 17,
        });
        if let Some(place) = first_hit(&rules, &header) {
            if let Ok(index) = u32::try_from(place) {
                let word = widen(&header, &Word::any(), &rules, index);
                fixed = fixed.wrapping_add(word.mask().count_ones());
            }
        }
    }
    println!(rt; "{fixed}")?;
    Ok(())
}
"""


def widen(folder):
    """Microseconds a word, with the start of the program."""
    uses = ["anyhow", "cache_maker", "five_tuple", "policy_rules", "ternary"]
    for rows, turns in ((0, 1_000_000), (100, 100_000), (1_000, 20_000)):
        text = WIDEN.replace("ROWS", str(rows)).replace("TURNS", str(turns))
        program = build(folder, "widen_turns", uses, text)
        print(f"{rows:4} earlier rules: {seconds(program) / turns * 1e6:.2f} microseconds a word")


# ---- cache rules that outlive a change

CARRY = """#![tactic(auto)]

use anyhow::Result;
use policy_rules::Action;
use std::alloc::AllocError;
use std::env;
use switch_table::{Cache, CacheEntry, Touched};
use ternary::Word;

fn number(text: Option<String>) -> u32 {
    text.and_then(|text| text.parse().ok()).unwrap_or(0)
}

fn main(rt: HostRuntime) -> Result<()> {
    let mut args = env::args(&rt)?.skip(1);
    let entries = number(args.next());
    let touched = number(args.next());
    let versions = number(args.next());
    let mut cache = Cache::new(rt.alloc(), entries);
    for host in 0..entries {
        // From one host of 10.0.0.0/8.
        let value = (u128::from(0x0a000000 | host) << 72) | 6;
        if let Some(word) = Word::new(value, (0xffffffffu128 << 72) | 0xff) {
            cache.accept(1, CacheEntry {
                version: 1,
                word,
                rule: Some(100),
                action: Action::Drop,
                message: host,
            })?;
        }
    }
    let mut words = Vec::new(rt.alloc());
    for row in 0..touched {
        // Rows of 10.0.0.0/24, and of networks that no entry is in.
        let net = 0x0a0000u128 | u128::from(row) << 12;
        if let Some(word) = Word::new(net << 80, 0xffffffu128 << 80) {
            words.push(word).map_err(AllocError::from)?;
        }
    }
    if let Some(words) = Touched::new(words) {
        for version in 2..versions {
            if touched == 0 {
                cache.raise(1);
            } else {
                cache.carry(version, &words)?;
            }
        }
    }
    println!(rt; "{}", cache.entries().count())?;
    Ok(())
}
"""


def carries(folder, turns=20_000):
    """How many entries stay, and microseconds a call: a raise, and carries of one and two words."""
    uses = ["anyhow", "policy_rules", "switch_table", "ternary"]
    program = build(folder, "carries", uses, CARRY, ["16", "1", "3"])
    for entries in (4096, 16384):
        for words, name in enumerate(("raise", "carry, one word", "carry, two words")):
            command = [program, str(entries), str(words), "3"]
            stay = subprocess.run(command, capture_output=True, text=True, check=True).stdout.strip()
            least = min(
                seconds(program, entries, words, turns) - seconds(program, entries, words, 3)
                for _ in range(5)
            )
            print(f"{name}: {stay} of {entries} stay, {least / turns * 1e6:.1f} microseconds")


CALLS = (carries, memory, networks, routes, rules, schedules, switches, widen)
NAMES = {call.__name__: call for call in CALLS}


def main():
    if not NAMES.keys() >= {*sys.argv[1:]}:
        sys.exit(__doc__)
    for name in sys.argv[1:] or NAMES:
        print(f"{name}:")
        with tempfile.TemporaryDirectory() as folder:
            NAMES[name](Path(folder))


main()
