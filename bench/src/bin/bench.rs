//! Times and counts of the library's calls beside those of the Rust program,
//! on the same inputs in the same run.
//!
//! `bench` prints the table, `bench only PART` that of the inputs whose names
//! have that part. `bench files FOLDER` writes the inputs. `bench call WHO CALL
//! GRAPH [ANCHORS]` makes one call on files, which is what is counted under
//! valgrind; WHO is `library` or `rust`, CALL a name from the table.

use bench::entries::{counted_call, Answer, Buffers, Call, Who};
use bench::inputs::{self, Input};
use bench::rust::graph::Graph;
use bench::rust::tables::closed_by_search;
use std::fs;
use std::hint::black_box;
use std::path::{Path, PathBuf};
use std::process::Command;

/// Calls that take longer, in seconds, are not counted: counting is about fifty
/// times as slow.
const LONGEST_COUNTED: f64 = 2.0;

/// For how many seconds both are timed at most, and how often at least.
const TIMED: f64 = 0.6;
const RUNS: usize = 3;

#[repr(C)]
struct Timespec {
    seconds: i64,
    nanoseconds: i64,
}

extern "C" {
    fn clock_gettime(clock: i32, time: *mut Timespec) -> i32;
}

/// Linux's clock of the time that this thread has run, whatever else runs.
const CLOCK_THREAD_CPUTIME_ID: i32 = 3;

/// The seconds that this thread has run.
fn seconds_run() -> f64 {
    let mut time = Timespec {
        seconds: 0,
        nanoseconds: 0,
    };
    // The pointer is to a local of the type that the clock writes.
    let status = unsafe { clock_gettime(CLOCK_THREAD_CPUTIME_ID, &mut time) };
    assert_eq!(status, 0, "the thread's clock");
    time.seconds as f64 + time.nanoseconds as f64 * 1e-9
}

/// How long something runs.
fn timed<T>(work: impl FnOnce() -> T) -> (f64, T) {
    let from = seconds_run();
    let done = work();
    (seconds_run() - from, done)
}

fn main() {
    let words: Vec<String> = std::env::args().skip(1).collect();
    match words.iter().map(String::as_str).collect::<Vec<_>>()[..] {
        [] => print_table(""),
        ["only", part] => print_table(part),
        ["files", folder] => write_files(folder),
        ["call", who, call, graph] => call_once(who, call, graph, None),
        ["call", who, call, graph, anchors] => call_once(who, call, graph, Some(anchors)),
        _ => panic!("usage: bench [only PART | files FOLDER | call WHO CALL GRAPH [ANCHORS]]"),
    }
}

/// Writes the files of every input, each into a folder of its own.
fn write_files(folder: &str) {
    for (index, input) in inputs::all().iter().enumerate() {
        let place = Path::new(folder).join(format!("{:02}", index + 1));
        fs::create_dir_all(&place).expect("a folder");
        fs::write(place.join("graph.bin"), &input.graph).expect("a file");
        fs::write(
            place.join("anchors.bin"),
            input.anchors.as_deref().unwrap_or(&[]),
        )
        .expect("a file");
        println!("{:02} {}", index + 1, input.name);
    }
}

/// One call on files.
fn call_once(who: &str, call: &str, graph: &str, anchors: Option<&str>) {
    let who = if who == "library" {
        Who::Library
    } else {
        Who::Rust
    };
    let call = Call::named(call).expect("a call's name");
    let graph = fs::read(graph).expect("the graph file");
    let file = anchors.map_or(Vec::new(), |anchors| {
        fs::read(anchors).expect("the anchor file")
    });
    let mut buffers = Buffers::new();
    black_box(counted_call(who, call, &graph, &file, &mut buffers));
}

/// What was measured of one call: the library, then the Rust program.
#[derive(Clone, Copy)]
struct Measured {
    seconds: [f64; 2],
    counts: Option<[f64; 2]>,
    answer: Answer,
}

fn print_table(part: &str) {
    let counting = Command::new("valgrind").arg("--version").output().is_ok();
    if !counting {
        println!("valgrind is not installed: no instruction counts");
    }
    println!("time: of the thread, best of several runs; instructions: by callgrind; ratio: library / Rust");
    for input in inputs::all()
        .iter()
        .filter(|input| input.name.contains(part))
    {
        print_input(input, counting);
    }
}

fn print_input(input: &Input, counting: bool) {
    let files = Files::write(input);
    let file = input.anchors.as_deref().unwrap_or(&[]);
    let mut rows: Vec<(Call, Measured)> = Vec::new();
    for call in Call::ALL {
        if call.takes_anchors() && input.anchors.is_none() {
            continue;
        }
        let (seconds, answer) = time_both(call, &input.graph, file);
        let short = seconds.iter().all(|&s| s < LONGEST_COUNTED);
        let counts = (counting && short)
            .then(|| [Who::Library, Who::Rust].map(|who| count(who, call, &files)));
        rows.push((
            call,
            Measured {
                seconds,
                counts,
                answer,
            },
        ));
    }
    print_heading(input, &rows);
    for (call, measured) in &rows {
        print_row(call.name(), measured);
    }
    print_beyond_tables(&rows);
    print_search(&input.graph);
}

/// What closed walks take by a search from every vertex, another algorithm
/// than both programs': its answers are compared, too.
fn print_search(graph: &[u8]) {
    let Ok(content) = Graph::read(graph) else {
        return;
    };
    let mut best = f64::INFINITY;
    let mut closed = vec![0; content.n()];
    for _ in 0..RUNS {
        let (seconds, ()) = timed(|| closed_by_search(&content, black_box(&mut closed)));
        best = best.min(seconds);
    }
    let mut buffers = Buffers::new();
    counted_call(Who::Rust, Call::Tables, graph, &[], &mut buffers);
    assert!(buffers.closed().starts_with(&closed), "closed walks differ");
    println!(
        "  (closed walks alone, by a search from each vertex: {})",
        duration(best)
    );
}

fn print_heading(input: &Input, rows: &[(Call, Measured)]) {
    println!("\n{}: graph file {} bytes", input.name, input.graph.len());
    for (_, measured) in rows {
        match measured.answer {
            Answer::Graph(a) => println!("  n {} m {} K {}", a.vertices, a.edges, a.paths),
            Answer::Tables(a) => println!(
                "  rounds: reach {} distance {}",
                a.reach_rounds, a.distance_rounds
            ),
            Answer::Anchors(a) => println!("  r {} N {}", a.letters, a.anchors),
            Answer::Chain(a) if a.rounds > 0 => {
                println!("  sweep rounds {}, chain of {}", a.rounds, a.length)
            }
            _ => (),
        }
    }
    println!(
        "  {:<18}{:>12}{:>12}{:>8}{:>16}{:>16}{:>8}",
        "", "library", "Rust", "ratio", "library instr.", "Rust instr.", "ratio"
    );
}

fn print_row(name: &str, measured: &Measured) {
    let [library, rust] = measured.seconds;
    print!(
        "  {name:<18}{:>12}{:>12}",
        duration(library),
        duration(rust)
    );
    print!("{:>8}", ratio(library, rust));
    match measured.counts {
        Some([library, rust]) => println!(
            "{:>16}{:>16}{:>8}",
            instructions(library),
            instructions(rust),
            ratio(library, rust)
        ),
        None => println!("{:>16}{:>16}{:>8}", "-", "-", "-"),
    }
}

fn instructions(count: f64) -> String {
    if count > 0.0 {
        format!("{count:.0}")
    } else {
        "-".into()
    }
}

fn ratio(library: f64, rust: f64) -> String {
    if library > 0.0 && rust > 0.0 {
        format!("{:.2}", library / rust)
    } else {
        "-".into()
    }
}

fn duration(seconds: f64) -> String {
    match seconds {
        s if s >= 1.0 => format!("{s:.3} s"),
        s if s >= 1e-3 => format!("{:.3} ms", s * 1e3),
        s if s > 0.0 => format!("{:.2} us", s * 1e6),
        _ => "-".into(),
    }
}

/// What the engines take beyond the tables: the sweep for each of its rounds,
/// the plain pass whole. Reading the anchors and listing the chain are in it.
fn print_beyond_tables(rows: &[(Call, Measured)]) {
    let of = |call| rows.iter().find(|row| row.0 == call).map(|row| row.1);
    let (Some(tables), Some(sweep), Some(plain)) =
        (of(Call::Tables), of(Call::Sweep), of(Call::Plain))
    else {
        return;
    };
    let Answer::Chain(chain) = sweep.answer else {
        return;
    };
    for (name, engine, rounds) in [
        ("sweep, a round", sweep, f64::from(chain.rounds.max(1))),
        ("plain, the pass", plain, 1.0),
    ] {
        let beyond = |all: [f64; 2], less: [f64; 2]| [0, 1].map(|i| (all[i] - less[i]) / rounds);
        let measured = Measured {
            seconds: beyond(engine.seconds, tables.seconds),
            counts: engine
                .counts
                .zip(tables.counts)
                .map(|(all, less)| beyond(all, less)),
            answer: engine.answer,
        };
        print_row(name, &measured);
    }
}

/// The best times of the library and of the Rust program, taken in turns; both
/// must answer the same and leave the same in the buffers.
fn time_both(call: Call, graph: &[u8], file: &[u8]) -> ([f64; 2], Answer) {
    let mut best = [f64::INFINITY; 2];
    let mut buffers = [Buffers::new(), Buffers::new()];
    let mut answers = Vec::new();
    let mut total = 0.0;
    let mut runs = 0;
    while runs < RUNS || total < TIMED {
        for (i, who) in [Who::Library, Who::Rust].into_iter().enumerate() {
            let (seconds, answer) =
                timed(|| black_box(counted_call(who, call, graph, file, &mut buffers[i])));
            best[i] = best[i].min(seconds);
            total += seconds;
            answers.push(answer);
        }
        runs += 1;
        assert!(
            answers.iter().all(|answer| *answer == answers[0]),
            "{call:?}: {answers:?}"
        );
        answers.truncate(1);
    }
    assert!(buffers[0] == buffers[1], "{call:?}: the buffers differ");
    (best, answers[0])
}

/// An input's files, for the calls that are counted.
struct Files {
    graph: PathBuf,
    anchors: Option<PathBuf>,
}

impl Files {
    fn write(input: &Input) -> Files {
        let folder = std::env::temp_dir().join(format!("toadtrellis-bench-{}", std::process::id()));
        fs::create_dir_all(&folder).expect("a folder for the files");
        let write = |name: &str, bytes: &[u8]| {
            let path = folder.join(name);
            fs::write(&path, bytes).expect("a file in it");
            path
        };
        Files {
            graph: write("graph.bin", &input.graph),
            anchors: input
                .anchors
                .as_deref()
                .map(|bytes| write("anchors.bin", bytes)),
        }
    }
}

impl Drop for Files {
    fn drop(&mut self) {
        let _ = fs::remove_dir_all(self.graph.parent().unwrap_or(Path::new("")));
    }
}

/// The instructions of one call.
fn count(who: Who, call: Call, files: &Files) -> f64 {
    let program = std::env::current_exe().expect("this program");
    let who = match who {
        Who::Library => "library",
        Who::Rust => "rust",
    };
    let output = Command::new("valgrind")
        .args(["--tool=callgrind", "--callgrind-out-file=/dev/null"])
        .arg("--toggle-collect=counted_call")
        .arg(program)
        .args(["call", who, call.name()])
        .arg(&files.graph)
        .args(&files.anchors)
        .output()
        .expect("valgrind runs");
    let text = String::from_utf8_lossy(&output.stderr);
    let collected = text
        .lines()
        .find_map(|line| line.split("Collected :").nth(1));
    collected
        .and_then(|count| count.trim().parse().ok())
        .unwrap_or_else(|| panic!("no count: {text}"))
}
