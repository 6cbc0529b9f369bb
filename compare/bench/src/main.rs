// Both sides from one driver on the same input. `bench times` prints medians of interleaved rounds, in nanoseconds: ours, the Rust's, and of copying the input by memcpy; `bench growth` the
// same for inputs of many lengths; `bench SIDE WHAT N` runs one side N times, for whoever counts instructions; `bench stream N` and `bench events` are the event stream and the Rust's
// event program, `bench child FILE PROGRAM ..` says what a program took.
mod events;
#[path = "../../src/leaned_on.rs"]
mod leaned_on;
mod stand_ins;
#[path = "../../src/told.rs"]
mod told;
include!(concat!(env!("OUT_DIR"), "/m17core.rs"));
use std::hint::black_box;

#[repr(C)]
#[derive(Clone, Copy)]
pub struct Counted {
    number: u8,
    count: usize,
}
#[repr(C)]
#[derive(Clone, Copy)]
pub struct Reader {
    filled: usize,
    taken: bool,
}
#[repr(C)]
#[derive(Clone, Copy)]
pub struct ReaderAnswer {
    number: u8,
    count: usize,
    reader: Reader,
}

// A slice is its pointer and its length.
extern "C" {
    fn iflazrud_m17_crc(bytes: *const u8, n: usize) -> u16;
    fn iflazrud_escape(src: *const u8, n: usize, dst: *mut u8, room: usize) -> Counted;
    fn iflazrud_unescape(src: *const u8, n: usize, dst: *mut u8, room: usize) -> usize;
    fn iflazrud_new_full_packet(lsf: *const u8, l: usize, packet: *const u8, n: usize, room: *mut u8, m: usize) -> Counted;
    fn bench_pad();
}

// The reader's answer is too large for registers. The toolchain lowers for x86-64, where the caller passes its place first; on another processor, for which `run` compiles the same module,
// that is no longer what `extern "C"` does, so it is written out.
#[cfg(target_arch = "x86_64")]
mod link {
    use super::*;
    extern "C" {
        fn iflazrud_reader_write(reader: Reader, offered: *const u8, n: usize, store: *mut u8, m: usize) -> ReaderAnswer;
        fn iflazrud_reader_next(reader: Reader, store: *mut u8, m: usize) -> ReaderAnswer;
    }
    pub fn write(reader: Reader, offered: &[u8], store: &mut [u8]) -> ReaderAnswer {
        unsafe { iflazrud_reader_write(reader, offered.as_ptr(), offered.len(), store.as_mut_ptr(), store.len()) }
    }
    pub fn next(reader: Reader, store: &mut [u8]) -> ReaderAnswer {
        unsafe { iflazrud_reader_next(reader, store.as_mut_ptr(), store.len()) }
    }
}
#[cfg(not(target_arch = "x86_64"))]
mod link {
    use super::*;
    use std::mem::MaybeUninit;
    extern "C" {
        fn iflazrud_reader_write(answer: *mut ReaderAnswer, filled: usize, taken: usize, offered: *const u8, n: usize, store: *mut u8, m: usize) -> *mut ReaderAnswer;
        fn iflazrud_reader_next(answer: *mut ReaderAnswer, filled: usize, taken: usize, store: *mut u8, m: usize) -> *mut ReaderAnswer;
    }
    pub fn write(reader: Reader, offered: &[u8], store: &mut [u8]) -> ReaderAnswer {
        let mut a = MaybeUninit::uninit();
        unsafe {
            iflazrud_reader_write(a.as_mut_ptr(), reader.filled, reader.taken as usize, offered.as_ptr(), offered.len(), store.as_mut_ptr(), store.len());
            a.assume_init()
        }
    }
    pub fn next(reader: Reader, store: &mut [u8]) -> ReaderAnswer {
        let mut a = MaybeUninit::uninit();
        unsafe {
            iflazrud_reader_next(a.as_mut_ptr(), reader.filled, reader.taken as usize, store.as_mut_ptr(), store.len());
            a.assume_init()
        }
    }
}

// Bytes before all other code, a different number for each link: where code is placed moves the time of a plain loop.
std::arch::global_asm!(concat!(".pushsection .text.unlikely.pad,\"ax\",%progbits\n.globl bench_pad\nbench_pad:\n.skip ", env!("PAD"), "\n.popsection"));

struct Input {
    data: Vec<u8>,
    escaped: Vec<u8>,
    out: Vec<u8>,
    frames: Vec<u8>,
    copy: Vec<u8>,
}

// Bytes for a name: without specials, random, all special.
fn bytes(kind: &str, n: usize) -> Vec<u8> {
    let mut x = 0x2545F491u32;
    (0..n)
        .map(|_| {
            x ^= x << 13;
            x ^= x >> 17;
            x ^= x << 5;
            match kind {
                "plain" => (x >> 8) as u8 & 0x7F,
                "special" => if x & 0x100 == 0 { 0xC0 } else { 0xDB },
                _ => (x >> 8) as u8,
            }
        })
        .collect()
}

fn input(kind: &str, n: usize) -> Input {
    let data = bytes(kind, n);
    let mut escaped = vec![0; 2 * n];
    let m = kiss::inside_escape(&data, &mut escaped);
    escaped.truncate(m);
    let mut frames = Vec::new();
    while frames.len() < 20_000 {
        frames.extend_from_slice(kiss::KissFrame::new_basic_packet(&bytes("random", 200)).unwrap().as_bytes());
    }
    Input { data, escaped, out: vec![0; 2 * n], frames, copy: Vec::new() }
}

fn ours_reader(frames: &[u8], piece: usize) -> usize {
    let mut store = [0u8; 1713];
    let mut reader = Reader { filled: 0, taken: false };
    let (mut at, mut sum) = (0, 0);
    while at < frames.len() {
        let end = (at + piece).min(frames.len());
        let a = link::write(reader, &frames[at..end], &mut store);
        assert!(a.number == 0);
        reader = a.reader;
        at += a.count;
        loop {
            let f = link::next(reader, &mut store);
            reader = f.reader;
            if f.count == 0 {
                break;
            }
            sum += f.count;
        }
    }
    sum
}

fn rust_reader(frames: &[u8], piece: usize) -> usize {
    let mut buffer = kiss::KissBuffer::new();
    let (mut at, mut sum) = (0, 0);
    while at < frames.len() {
        let end = (at + piece).min(frames.len());
        let room = buffer.buf_remaining();
        let n = room.len().min(end - at);
        room[..n].copy_from_slice(&frames[at..at + n]);
        buffer.did_write(n);
        at += n;
        while let Some(f) = buffer.next_frame() {
            sum += f.as_bytes().len();
        }
    }
    sum
}

fn once(ours: bool, what: &str, x: &mut Input) -> usize {
    let lsf = [7u8; 30];
    let d = black_box(&x.data[..]);
    match (what.split('-').next().unwrap(), ours) {
        ("crc", true) => unsafe { iflazrud_m17_crc(d.as_ptr(), d.len()) as usize },
        ("crc", false) => crc::m17_crc(d) as usize,
        ("escape", true) => unsafe { iflazrud_escape(d.as_ptr(), d.len(), x.out.as_mut_ptr(), x.out.len()).count },
        ("escape", false) => kiss::inside_escape(d, &mut x.out),
        ("unescape", true) => unsafe { iflazrud_unescape(x.escaped.as_ptr(), x.escaped.len(), x.out.as_mut_ptr(), d.len()) },
        ("unescape", false) => kiss::inside_unescape(&x.escaped, &mut x.out[..d.len()]),
        ("build", true) => {
            let mut room = [0u8; 1713];
            let r = unsafe { iflazrud_new_full_packet(lsf.as_ptr(), 30, d.as_ptr(), d.len(), room.as_mut_ptr(), 1713) };
            black_box(&room);
            r.count
        }
        ("build", false) => {
            let f = kiss::KissFrame::new_full_packet(&lsf, d).unwrap();
            black_box(&f).as_bytes().len()
        }
        ("reader", true) => ours_reader(&x.frames, piece(what)),
        ("reader", false) => rust_reader(&x.frames, piece(what)),
        _ => panic!("what is {what}?"),
    }
}

fn piece(what: &str) -> usize {
    what.rsplit('-').next().unwrap().parse().unwrap()
}

fn prepared(what: &str) -> Input {
    match what.split('-').next().unwrap() {
        "crc" | "build" => input("random", 825),
        "reader" => input("plain", 1),
        _ => input(what.rsplit('-').next().unwrap(), 855),
    }
}

const ALL: [&str; 11] = [
    "crc", "escape-plain", "escape-random", "escape-special", "unescape-plain", "unescape-random", "unescape-special", "build", "reader-1", "reader-64", "reader-1713",
];

// What this thread has run, in seconds: Linux' clock 3, which leaves out what other processes took.
fn clock() -> f64 {
    extern "C" {
        fn clock_gettime(clock: i32, time: *mut [i64; 2]) -> i32;
    }
    let mut time = [0i64; 2];
    assert_eq!(unsafe { clock_gettime(3, &mut time) }, 0);
    time[0] as f64 + time[1] as f64 * 1e-9
}

// What a program took in all, in microseconds, with a file as its input: its own time and what the system did for it.
fn child(words: &[String]) -> i64 {
    extern "C" {
        fn getrusage(who: i32, usage: *mut [i64; 18]) -> i32;
    }
    let input = std::fs::File::open(&words[0]).unwrap();
    let done = std::process::Command::new(&words[1]).args(&words[2..]).stdin(input).stdout(std::process::Stdio::null()).status().unwrap();
    assert!(done.success());
    let mut usage = [0i64; 18];
    assert_eq!(unsafe { getrusage(-1, &mut usage) }, 0);
    (usage[0] + usage[2]) * 1_000_000 + usage[1] + usage[3]
}

fn seconds(n: usize, mut f: impl FnMut() -> usize) -> f64 {
    let from = clock();
    for _ in 0..n {
        black_box(f());
    }
    (clock() - from) / n as f64
}

// Copies what the call reads: the input, its escaped form, or the frames for the reader.
fn copied(what: &str, x: &mut Input) -> usize {
    let from = match what.split('-').next().unwrap() {
        "unescape" => &x.escaped,
        "reader" => &x.frames,
        _ => &x.data,
    };
    x.copy.resize(from.len(), 0);
    x.copy.copy_from_slice(black_box(from));
    black_box(&x.copy).len()
}

fn median(mut v: Vec<f64>) -> f64 {
    v.sort_by(f64::total_cmp);
    v[v.len() / 2]
}

// One line: what, ours, the Rust, memcpy, in nanoseconds for a call.
fn line(name: &str, what: &str, mut x: Input) {
    assert_eq!(once(true, what, &mut x), once(false, what, &mut x), "{name}: the sides differ");
    let n = (0.004 / seconds(3, || once(false, what, &mut x))).clamp(2.0, 50000.0) as usize;
    let mut rounds = [Vec::new(), Vec::new(), Vec::new()];
    for _ in 0..15 {
        rounds[0].push(seconds(n, || once(true, what, &mut x)));
        rounds[1].push(seconds(n, || once(false, what, &mut x)));
        rounds[2].push(seconds(n, || copied(what, &mut x)));
    }
    let [a, b, c] = rounds.map(|v| median(v) * 1e9);
    println!("{name} {a:.1} {b:.1} {c:.1}");
}

fn main() {
    black_box(bench_pad as unsafe extern "C" fn());
    let words: Vec<String> = std::env::args().skip(1).collect();
    match words.first().map(String::as_str) {
        Some("names") => println!("{}", ALL.join(" ")),
        Some("events") => events::events(),
        Some("stream") => events::stream(words[1].parse().unwrap()),
        Some("child") => println!("{}", child(&words[1..])),
        Some("times") => ALL.iter().for_each(|what| line(what, what, prepared(what))),
        Some("growth") => {
            for what in ["crc", "escape-random", "unescape-random"] {
                for n in [16, 64, 256, 1024, 4096, 16384] {
                    line(&format!("{what}/{n}"), what, input("random", n));
                }
            }
        }
        _ => {
            let mut x = prepared(&words[1]);
            let mut sum = 0usize;
            for _ in 0..words[2].parse::<usize>().unwrap() {
                sum = sum.wrapping_add(black_box(once(words[0] == "ours", &words[1], &mut x)));
            }
            println!("{sum}");
        }
    }
}
