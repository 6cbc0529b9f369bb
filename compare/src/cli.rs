// The command: options, the runs, the summary.
use crate::events::{is_whole, run, split, ROWS};
use crate::functions::{hex, Probe, Sink, NAMES, PROGRAMS};
use crate::generate::{fixed, random, Reached, Stream};
use crate::rng::Rng;
use std::io::{Read, Write};
use std::panic::{catch_unwind, AssertUnwindSafe};
use std::process::Stdio;
use std::time::{Duration, Instant};

struct Options {
    // The folder with our programs `probe` and `probe_lsf`.
    probes: Option<String>,
    program: Option<String>,
    seed: u64,
    events: u64,
    record: Option<String>,
    // Nothing is held to document 01: for a Rust on both sides.
    inside_only: bool,
}

fn options() -> Options {
    let mut o = Options {
        probes: None,
        program: None,
        seed: 1713,
        events: 3_000_000,
        record: None,
        inside_only: false,
    };
    let mut words = std::env::args().skip(1);
    while let Some(word) = words.next() {
        let mut value = || words.next().unwrap_or_else(|| usage());
        match word.as_str() {
            "--probes" => o.probes = Some(value()),
            "--program" => o.program = Some(value()),
            "--seed" => o.seed = value().parse().unwrap_or_else(|_| usage()),
            "--events" => o.events = value().parse().unwrap_or_else(|_| usage()),
            "--record" => o.record = Some(value()),
            "--inside-only" => o.inside_only = true,
            "--lines" => {
                lines(words.next().as_deref() == Some("--past"));
                std::process::exit(0)
            }
            _ => usage(),
        }
    }
    o
}

fn usage() -> ! {
    eprintln!("compare [--probes FOLDER] [--program PATH] [--seed N] [--events N] [--record FOLDER] [--inside-only] | --lines [--past]");
    std::process::exit(2)
}

// The Rust's lines for the events on standard input, and why they end; or past the end of the domain too.
fn lines(past: bool) {
    let mut input = vec![];
    std::io::stdin().read_to_end(&mut input).unwrap();
    if past {
        crate::events::run_past(&split(&input)).iter().for_each(|l| println!("{l}"));
        return;
    }
    let r = run(&split(&input));
    for l in &r.lines {
        println!("{l}");
    }
    if let Some(e) = r.end {
        eprintln!("the domain ends: {}", ROWS[e.row.index()].1);
    }
    if let Some(u) = r.unforeseen {
        eprintln!("unforeseen: {u}");
    }
}

pub fn main() {
    std::panic::set_hook(Box::new(|info| {
        // The Rust's own panics are looked for; ours are faults.
        let at = info.location().map_or(String::new(), |l| l.file().to_string());
        if at.contains("/compare/") || at.starts_with("src/") {
            eprintln!("{info}");
        }
    }));
    let o = options();
    println!("seed {}", o.seed);
    if let Some(folder) = &o.record {
        return record(folder, o.seed);
    }
    let mut wrong = 0;
    if let Some(folder) = &o.probes {
        wrong += compare_functions(folder, o.seed);
    }
    wrong += compare_events(&o);
    println!(
        "{}",
        if wrong == 0 {
            "no difference".to_string()
        } else {
            format!("{wrong} DIFFERENCES")
        }
    );
    std::process::exit((wrong > 0) as i32)
}

fn compare_functions(folder: &str, seed: u64) -> u64 {
    let start = Instant::now();
    let mut probes = PROGRAMS.map(|name| Probe::start(&format!("{folder}/{name}")));
    let mut sink = Sink::new(Some(&mut probes));
    let panics = catch_unwind(AssertUnwindSafe(|| crate::functions::all(&mut Rng::new(seed), &mut sink))).is_err();
    if panics {
        println!("UNFORESEEN: the Rust panics in a function");
    }
    let (calls, outside, wrong) = (sink.calls, sink.outside, sink.differences + panics as u64);
    probes.into_iter().for_each(Probe::end);
    println!("functions: calls compared with the Rust; calls outside the domain, compared with document 01");
    let mut sums = (0, 0);
    for (kind, name) in NAMES {
        println!("  {name}: {}; {}", calls[kind as usize], outside[kind as usize]);
        sums = (sums.0 + calls[kind as usize], sums.1 + outside[kind as usize]);
    }
    println!(
        "  all {} functions: {} calls; {}; {wrong} differences; {:.0} s",
        NAMES.len(),
        sums.0,
        sums.1,
        start.elapsed().as_secs_f64()
    );
    wrong
}

fn ours(program: &str, input: &[u8]) -> Vec<String> {
    let mut child = crate::functions::command(program)
        .stdin(Stdio::piped())
        .stdout(Stdio::piped())
        .spawn()
        .unwrap_or_else(|e| panic!("{program}: {e}"));
    let mut stdin = child.stdin.take().unwrap();
    let mut text = String::new();
    std::thread::scope(|s| {
        s.spawn(move || stdin.write_all(input).ok());
        child.stdout.take().unwrap().read_to_string(&mut text).ok();
    });
    child.wait().ok();
    text.lines().map(|l| l.to_string()).collect()
}

// Where the lines first differ, with both: the Rust's, ours. At the end of the domain ours is held to document 01.
fn differs(lines: &[String], end: Option<&crate::events::Ended>, got: &[String], inside_only: bool) -> Option<(usize, String, String)> {
    for (i, l) in lines.iter().enumerate() {
        if got.get(i) != Some(l) {
            return Some((i, l.clone(), got.get(i).cloned().unwrap_or_default()));
        }
    }
    match end {
        Some(_) if inside_only => None,
        Some(e) => {
            let line = got.get(lines.len()).cloned().unwrap_or_default();
            (!e.allows(&line)).then(|| (lines.len(), format!("{:?} (document 01, at {:?})", e.allowed, e.row), line))
        }
        None if got.len() > lines.len() => Some((lines.len(), String::new(), got[lines.len()].clone())),
        None => None,
    }
}

// The fewest events that still show a difference, found by leaving out ever smaller runs of them.
fn shrunk(program: &str, stream: &[u8], inside_only: bool) -> Vec<u8> {
    let shows = |events: &[&[u8]]| {
        let r = run(events);
        let input: Vec<u8> = events.concat();
        r.unforeseen.is_some() || differs(&r.lines, r.end.as_ref(), &ours(program, &input), inside_only).is_some()
    };
    // Long enough for any find that we have seen; what is left then shows the difference too.
    let until = Instant::now() + Duration::from_secs(40);
    let mut left = split(stream);
    let mut size = left.len().div_ceil(2);
    loop {
        let mut at = 0;
        let mut fewer = false;
        while at < left.len() && Instant::now() < until {
            let end = (at + size).min(left.len());
            let rest: Vec<&[u8]> = [&left[..at], &left[end..]].concat();
            if rest.iter().rev().skip(1).all(|e| is_whole(e)) && shows(&rest) {
                left = rest;
                fewer = true;
            } else {
                at = end;
            }
        }
        if size == 1 && !fewer {
            return left.concat();
        }
        size = if fewer { size } else { size.div_ceil(2).min(size - 1).max(1) };
    }
}

#[derive(Default)]
struct Totals {
    streams: u64,
    compared: u64,
    kinds: std::collections::BTreeMap<u8, u64>,
    after: u64,
    ends: [u64; ROWS.len()],
    wrong: u64,
    inside_only: bool,
}

fn compare_one(program: Option<&str>, s: Stream, t: &mut Totals) {
    t.streams += 1;
    t.compared += s.lines.len() as u64;
    for i in 0..s.lines.len() {
        *t.kinds.entry(s.bytes[s.starts[i]]).or_default() += 1;
    }
    t.after += s.after as u64;
    if let Some(e) = &s.end {
        t.ends[e.row.index()] += 1;
    }
    if let Some(u) = &s.unforeseen {
        t.wrong += 1;
        println!(
            "UNFORESEEN: {u}, at event {} of {}",
            s.lines.len(),
            hex(&s.bytes[..s.bytes.len().min(4000)])
        );
    }
    let Some(program) = program else { return };
    let got = ours(program, &s.bytes);
    if let Some((at, rust, mine)) = differs(&s.lines, s.end.as_ref(), &got, t.inside_only) {
        t.wrong += 1;
        if t.wrong > 3 {
            return;
        }
        println!("DIFFERENCE at event {at} of a stream: the Rust {rust:?}, ours {mine:?}");
        let upto = s.starts.get(at + 1).copied().unwrap_or(s.bytes.len());
        let least = shrunk(program, &s.bytes[..upto], t.inside_only);
        let r = run(&split(&least));
        let last = |lines: &[String]| lines[lines.len().saturating_sub(4)..].join(" | ");
        println!("  smallest input {}", hex(&least));
        println!("  the Rust's last lines {} {:?}", last(&r.lines), r.end.map(|e| e.row));
        println!("  ours                  {}", last(&ours(program, &least)));
    }
}

fn compare_events(o: &Options) -> u64 {
    let (program, events) = (o.program.as_deref(), o.events);
    let start = Instant::now();
    let mut rng = Rng::new(o.seed ^ 0xE7E7);
    let mut t = Totals {
        inside_only: o.inside_only,
        ..Totals::default()
    };
    let mut reached = Reached::default();
    for s in fixed(&mut rng, &mut reached) {
        compare_one(program, s, &mut t);
    }
    let fixed_streams = t.streams;
    while t.compared < events {
        let n = rng.pick(&[1000, 1000, 5000, 5000, 10000, 10000, 20000, 20000, 60000]);
        let s = random(&mut rng, &mut reached, n);
        compare_one(program, s, &mut t);
    }
    let side = if program.is_some() {
        "compared"
    } else {
        "run on the Rust alone (no program was named)"
    };
    println!(
        "events: {} {side} inside the domain, in {} streams, {fixed_streams} of them fixed",
        t.compared, t.streams
    );
    let each: Vec<String> = t.kinds.iter().map(|(k, n)| format!("{k:02X} {n}")).collect();
    println!("  by kind: {}", each.join(", "));
    println!("  where the domain ended (streams), and our line was held to document 01:");
    for (row, name) in ROWS {
        println!("    {}: {name}", t.ends[row.index()]);
    }
    println!("    {}: it did not end", t.streams - t.ends.iter().sum::<u64>());
    println!("  events after the end, not compared: {}", t.after);
    println!(
        "  reached: at most {} packets and {} stream frames held; {} events with the packet queue full, {} with the stream queue full",
        reached.most_packets, reached.most_streams, reached.full_packet_events, reached.full_stream_events
    );
    println!(
        "    {} transmissions begun, up to {} packets in one, {} streams sent; PTT dropped by a clock {} times; checks set {} times",
        reached.preambles, reached.packets_in_one, reached.streams_sent, reached.ptt_dropped_by_clock, reached.checks_set
    );
    println!(
        "    {} acquisitions over {} of 720 orders, {} LSFs assembled; {} last packet frames heard; {} full readers dropped",
        reached.acquired,
        reached.orders.iter().filter(|o| **o).count(),
        reached.assembled,
        reached.packets_told,
        reached.dropped_stretches
    );
    println!("  {} differences; {:.0} s", t.wrong, start.elapsed().as_secs_f64());
    t.wrong
}

// The Rust's answers to a short list of requests and events, outside the domain document 01's, as the files stdin and stdout of our programs.
fn record(folder: &str, seed: u64) {
    let write = |name: &str, bytes: &[u8]| {
        let path = format!("{folder}/{name}");
        std::fs::write(&path, bytes).unwrap_or_else(|e| panic!("{path}: {e}"));
        println!("wrote {path}, {} bytes", bytes.len());
    };
    let mut sink = Sink::new(None);
    crate::functions::sample(&mut Rng::new(seed), &mut sink);
    for (i, name) in PROGRAMS.iter().enumerate() {
        let cases = || sink.kept.iter().filter(|c| c.program() == i);
        write(
            &format!("{name}/stdin"),
            &cases().flat_map(|c| c.request.clone()).collect::<Vec<u8>>(),
        );
        write(
            &format!("{name}/stdout"),
            &cases().flat_map(|c| c.answer.clone()).collect::<Vec<u8>>(),
        );
    }
    let mut rng = Rng::new(seed);
    let tour = crate::generate::tour(&mut rng, &mut Reached::default());
    assert!(
        tour.end.is_none() && tour.unforeseen.is_none(),
        "the recorded stream leaves the domain"
    );
    let text: String = tour.lines.iter().map(|l| format!("{l}\n")).collect();
    write("event_program/stdin", &tour.bytes);
    write("event_program/stdout", text.as_bytes());
}
