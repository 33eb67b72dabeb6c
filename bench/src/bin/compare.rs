//! Runs the second program's cases through the library, by its C names.
//!
//! `compare SEED FOLDER`: FOLDER has what the second program wrote for that
//! seed: `cases.bin` and `cases.txt` (its command `corpus`), `writers.bin` and
//! `writers.txt`, `views.bin` and `views.txt`. For each case the answers and
//! every place of every lent buffer are compared, also before it, past its full
//! size and past its end. The last line is `N passed, M failed`.

use bench::library::{self, Engine, Refusal, Refused, SMALL_BUFFER};
use bench::library::{ToadAnchors, ToadChain, ToadGraph, ToadPart, ToadTables, ToadWritten};

use second::anchor_file::{self, AnchorFile};
use second::graph_file::{self, GraphFile};
use second::judge::Digest;
use second::limits::*;
use second::number::Fault;
use second::prng::Prng;
use second::writers::{AnchorContent, GraphContent};
use std::fmt::Debug;
use std::fs;
use std::path::Path;
use std::process::ExitCode;

fn main() -> ExitCode {
    let words: Vec<String> = std::env::args().skip(1).collect();
    let [seed, folder] = &words[..] else {
        panic!("usage: compare SEED FOLDER");
    };
    let mut run = Run {
        prng: Prng::new(seed.parse().expect("a seed is a number")),
        filling: Filling::new(),
        passed: 0,
        failed: 0,
    };
    let folder = Path::new(folder);
    run.all(folder, "cases", case);
    run.all(folder, "writers", writer_case);
    run.all(folder, "views", view_case);
    println!("{} passed, {} failed", run.passed, run.failed);
    ExitCode::from(u8::from(run.failed > 0))
}

/// What a check says of the first thing that is wrong.
type Checked = Result<(), String>;

macro_rules! expect {
    ($holds:expr, $($words:tt)*) => {
        if !$holds {
            return Err(format!($($words)*));
        }
    };
}

struct Run {
    prng: Prng,
    filling: Filling,
    passed: usize,
    failed: usize,
}

impl Run {
    /// All cases of one kind, each with its line of what is expected.
    fn all(
        &mut self,
        folder: &Path,
        kind: &str,
        check: fn(&mut Run, u8, &mut Bytes, &str) -> Checked,
    ) {
        let read = |end: &str| {
            let path = folder.join(format!("{kind}.{end}"));
            fs::read(&path).unwrap_or_else(|error| panic!("{}: {error}", path.display()))
        };
        let cases = read("bin");
        let lines = String::from_utf8(read("txt")).expect("text");
        let mut bytes = Bytes(&cases);
        let before = self.passed;
        for (index, line) in lines.lines().enumerate() {
            let first = bytes.byte();
            match check(self, first, &mut bytes, line) {
                Ok(()) => self.passed += 1,
                Err(words) => {
                    self.failed += 1;
                    if self.failed <= 20 {
                        println!("{kind} {}: {words}\n  expected: {line}", index + 1);
                    }
                }
            }
        }
        assert!(
            bytes.byte() == 0 && bytes.0.is_empty(),
            "{kind}: cases without a line"
        );
        println!("{kind}: {} passed", self.passed - before);
    }

    /// A buffer of full size, or with some places more.
    fn lent<T: Filled>(&mut self, full: usize) -> Lent<T> {
        let more = self.prng.pick(&[0, 0, 1, 100]);
        Lent::new(self, full, full + more)
    }

    /// Makes one of the buffers of a call too small, each in one of `calls`.
    fn shorten(&mut self, calls: usize, lent: &mut [&mut dyn Room]) {
        if let Some(lent) = lent.get_mut(self.prng.below(calls)) {
            lent.shorten(self);
        }
    }

    /// A writer's output, of any size.
    fn output(&mut self, size: usize) -> Lent<u8> {
        Lent::new(self, 0, size)
    }

    /// A writer's output that has room for a file.
    fn output_for(&mut self, file: &[u8]) -> Lent<u8> {
        let more = self.prng.pick(&[0, 0, 1, 1_000]);
        self.output(file.len() + more)
    }
}

/// The cases file, read from the front.
struct Bytes<'a>(&'a [u8]);

impl<'a> Bytes<'a> {
    fn take(&mut self, count: usize) -> &'a [u8] {
        let (front, rest) = self.0.split_at(count);
        self.0 = rest;
        front
    }

    fn byte(&mut self) -> u8 {
        self.take(1)[0]
    }

    fn number(&mut self) -> u32 {
        u32::from_le_bytes(self.take(4).try_into().expect("four bytes"))
    }

    fn file(&mut self) -> &'a [u8] {
        let length = self.number() as usize;
        self.take(length)
    }

    /// A buffer given by its size and by the runs that do not hold 0.
    fn runs<T: Clone + Default>(&mut self, one: fn(&mut Bytes<'a>) -> T) -> Vec<T> {
        let mut buffer = vec![T::default(); self.number() as usize];
        for _ in 0..self.number() {
            let [first, count] = [self.number(), self.number()].map(|x| x as usize);
            for place in &mut buffer[first..first + count] {
                *place = one(self);
            }
        }
        buffer
    }

    fn letters(&mut self) -> Vec<u8> {
        self.runs(Bytes::byte)
    }

    fn numbers(&mut self) -> Vec<u32> {
        self.runs(Bytes::number)
    }
}

/// What buffers are filled with before a call.
struct Filling {
    bytes: Vec<u8>,
    numbers: Vec<u32>,
}

const FILLING: usize = 1 << 17;

impl Filling {
    fn new() -> Filling {
        let mut prng = Prng::new(1);
        let numbers: Vec<u32> = (0..FILLING).map(|_| prng.draw() as u32).collect();
        Filling {
            bytes: numbers.iter().map(|&number| number as u8).collect(),
            numbers,
        }
    }
}

trait Filled: Copy + PartialEq {
    fn filling(filling: &Filling) -> &[Self];
}

impl Filled for u8 {
    fn filling(filling: &Filling) -> &[u8] {
        &filling.bytes
    }
}

impl Filled for u32 {
    fn filling(filling: &Filling) -> &[u32] {
        &filling.numbers
    }
}

/// A lent buffer within a room that holds something else on both sides.
struct Lent<T> {
    room: Vec<T>,
    before: Vec<T>,
    full: usize,
    size: usize,
}

/// How many places of the room lie before the buffer, and after it.
const MARGIN: usize = 64;

impl<T: Filled> Lent<T> {
    fn new(run: &mut Run, full: usize, size: usize) -> Lent<T> {
        let filling = T::filling(&run.filling);
        let whole = size + 2 * MARGIN;
        let start = run.prng.below(filling.len() - whole);
        let before = filling[start..start + whole].to_vec();
        Lent {
            room: before.clone(),
            before,
            full,
            size,
        }
    }

    fn buffer(&mut self) -> &mut [T] {
        &mut self.room[MARGIN..MARGIN + self.size]
    }

    fn used(&self) -> &[T] {
        &self.room[MARGIN..MARGIN + self.size]
    }

    /// The front holds this, and all else what it held before.
    fn holds(&self, front: &[T]) -> bool {
        let end = MARGIN + front.len();
        self.room[..MARGIN] == self.before[..MARGIN]
            && self.room[MARGIN..end] == *front
            && self.room[end..] == self.before[end..]
    }

    /// Whether only so many places at the front were written.
    fn only_front(&self, places: usize) -> bool {
        self.holds(&self.used()[..places])
    }
}

/// A lent buffer, whatever its places hold.
trait Room {
    fn small(&self) -> bool;
    fn untouched(&self) -> bool;

    /// Makes it a buffer below full size.
    fn shorten(&mut self, run: &mut Run);
}

impl<T: Filled> Room for Lent<T> {
    fn small(&self) -> bool {
        self.size < self.full
    }

    fn untouched(&self) -> bool {
        self.room == self.before
    }

    fn shorten(&mut self, run: &mut Run) {
        let full = self.full;
        let size = run.prng.pick(&[full - 1, full - 1, full / 2, 0]);
        *self = Lent::new(run, full, size);
    }
}

/// What is expected: content of some kind, or a refusal.
type Expected<T> = Result<T, Refusal>;

/// What a line expects: a refusal, or the numbers after its first words.
fn expected_of(line: &str, words: &str) -> Expected<Vec<u64>> {
    match refusal_of(line) {
        Some(refusal) => Err(refusal),
        None => Ok(numbers_of(line.strip_prefix(words).expect("its words"))),
    }
}

/// `refused NUMBER file FILE place PLACE`, as an answer begins.
fn refusal_of(line: &str) -> Option<Refusal> {
    let words: Vec<&str> = line.split(' ').collect();
    let ["refused", number, "file", file, "place", place] = words[..] else {
        return None;
    };
    let [number, file, place] = [number, file, place].map(|word| word.parse().expect("a number"));
    Some(Refusal {
        number,
        file,
        place,
    })
}

fn numbers_of(line: &str) -> Vec<u64> {
    let number = |word: &str| word.parse().expect("a number");
    line.split(' ').map(number).collect()
}

/// A fault that the second program finds in the file named.
fn of_file(file: u32) -> impl Fn(Fault) -> Refusal {
    move |fault| Refusal {
        number: fault.number,
        file,
        place: fault.place as u32,
    }
}

/// The second program's reader must say what its line says.
fn agreed<T>(read: &Expected<T>, expected: &Expected<Vec<u64>>) -> Checked {
    let refusal = read.as_ref().err();
    expect!(
        refusal == expected.as_ref().err(),
        "the second program says {refusal:?}"
    );
    Ok(())
}

/// The content that a call must have accepted; None where it had to refuse,
/// which is checked here: by its answer, and by every place lent to it.
fn accepted<T, A: Refused + PartialEq + Debug>(
    name: &str,
    answer: &A,
    lent: &[&dyn Room],
    expected: Expected<T>,
) -> Result<Option<T>, String> {
    let small = lent.iter().any(|lent| lent.small());
    let refusal = match expected {
        _ if small => SMALL_BUFFER,
        Ok(content) => return Ok(Some(content)),
        Err(refusal) => refusal,
    };
    answered(name, answer, &A::refused(refusal))?;
    expect!(
        lent.iter().all(|lent| lent.untouched()),
        "{name} refused {} and wrote",
        refusal.number
    );
    Ok(None)
}

/// The answer of a call is the one wanted.
fn answered<A: PartialEq + Debug>(name: &str, answer: &A, wanted: &A) -> Checked {
    expect!(answer == wanted, "{name}: {answer:?}");
    Ok(())
}

/// The writer on what was read must give the file back.
fn given_back(name: &str, answer: &ToadWritten, out: &Lent<u8>, file: &[u8]) -> Checked {
    let name = format!("{name} of what was read");
    answered(&name, answer, &written(file.len() as u32))?;
    expect!(out.holds(file), "{name}: other bytes");
    Ok(())
}

/// A writer's answer where it wrote so many bytes.
fn written(bytes: u32) -> ToadWritten {
    ToadWritten {
        bytes,
        ..ToadWritten::default()
    }
}

/// The buffers, each with its name, hold what the digest is of. It is of the
/// full sizes, so unused places must hold 0; past them nothing was written.
fn digested(name: &str, lent: &[(&str, &Lent<u32>)], wanted: u64) -> Checked {
    let mut digest = Digest::new();
    for (_, lent) in lent {
        digest.numbers(&lent.used()[..lent.full]);
    }
    expect!(digest.value() == wanted, "{name}: other entries");
    for (buffer, lent) in lent {
        expect!(
            lent.only_front(lent.full),
            "{name}: {buffer} past the full size"
        );
    }
    Ok(())
}

/// One case of the corpus: kind 1 has both files, kind 2 the graph file only.
fn case(run: &mut Run, kind: u8, bytes: &mut Bytes, line: &str) -> Checked {
    let graph = bytes.file();
    let anchors = bytes.file();
    let expected = expected_of(line, "");
    let graph_file = graph_file::read_graph(graph).map_err(of_file(1));
    graph_reading(run, graph, &graph_file)?;
    if kind == 2 {
        agreed(&graph_file, &expected)?;
    }
    let numbers = expected.as_deref().map_err(|&refusal| refusal);
    // The tables have their numbers in the line; where only the anchor file is
    // refused there are none, and the call is not made.
    match (numbers, &graph_file) {
        (Ok(_), Ok(_)) => making_tables(run, graph, numbers)?,
        (Err(_), Ok(_)) => (),
        (_, Err(refusal)) => making_tables(run, graph, Err(*refusal))?,
    }
    if kind == 1 {
        let both = graph_file.and_then(|graph_file| {
            anchor_file::read_anchors(&graph_file.graph, anchors).map_err(of_file(2))
        });
        agreed(&both, &expected)?;
        anchor_reading(run, graph, anchors, &both)?;
        chaining(run, graph, anchors, numbers, library::sweep, true)?;
        chaining(run, graph, anchors, numbers, library::plain, false)?;
    }
    Ok(())
}

/// The graph reader; with a buffer too small; and the writer on what was read.
fn graph_reading(run: &mut Run, file: &[u8], expected: &Expected<GraphFile>) -> Checked {
    let mut letters = run.lent(LETTERS_SIZE);
    let mut lengths = run.lent(LENGTHS_SIZE);
    let mut edges = run.lent(EDGES_SIZE);
    let mut paths = run.lent(PATHS_SIZE);
    let mut counts = run.lent(COUNTS_SIZE);
    run.shorten(
        20,
        &mut [
            &mut letters,
            &mut lengths,
            &mut edges,
            &mut paths,
            &mut counts,
        ],
    );
    let answer = library::read_graph(
        file,
        letters.buffer(),
        lengths.buffer(),
        edges.buffer(),
        paths.buffer(),
        counts.buffer(),
    );
    let lent: [&dyn Room; 5] = [&letters, &lengths, &edges, &paths, &counts];
    let expected = expected.as_ref().map_err(|&refusal| refusal);
    let Some(graph_file) = accepted("read_graph", &answer, &lent, expected)? else {
        return Ok(());
    };
    let content = GraphContent::of(&graph_file.graph);
    let wanted = ToadGraph {
        vertices: content.n,
        letters: graph_file.graph.letters() as u32,
        edges: content.m,
        paths: content.k,
        ..ToadGraph::default()
    };
    answered("read_graph", &answer, &wanted)?;
    expect!(letters.holds(&content.letters), "read_graph: letters");
    expect!(lengths.holds(&content.lengths), "read_graph: lengths");
    expect!(edges.holds(&content.edges), "read_graph: edges");
    expect!(paths.holds(&content.paths), "read_graph: paths");
    expect!(counts.holds(&content.counts), "read_graph: counts");
    let mut out = run.output_for(file);
    let answer = library::write_graph(
        content.n,
        content.m,
        content.k,
        letters.used(),
        lengths.used(),
        edges.used(),
        paths.used(),
        counts.used(),
        out.buffer(),
    );
    given_back("write_graph", &answer, &out, file)
}

/// The tables. What is expected is a refusal, or the numbers of the line.
fn making_tables(run: &mut Run, file: &[u8], expected: Expected<&[u64]>) -> Checked {
    let mut reach = run.lent(TABLE_SIZE);
    let mut distance = run.lent(TABLE_SIZE);
    let mut closed = run.lent(CLOSED_SIZE);
    run.shorten(15, &mut [&mut reach, &mut distance, &mut closed]);
    let answer = library::tables(file, reach.buffer(), distance.buffer(), closed.buffer());
    let lent: [&dyn Room; 3] = [&reach, &distance, &closed];
    let Some(line) = accepted("tables", &answer, &lent, expected)? else {
        return Ok(());
    };
    let wanted = ToadTables {
        vertices: line[0] as u32,
        paths: line[3] as u32,
        reach_rounds: line[4] as u32,
        distance_rounds: line[5] as u32,
        ..ToadTables::default()
    };
    answered("tables", &answer, &wanted)?;
    let lent = [
        ("reach", &reach),
        ("distance", &distance),
        ("closed", &closed),
    ];
    digested("tables", &lent, line[6])
}

/// The anchor reader; with a buffer too small; and the writer on what was read.
fn anchor_reading(
    run: &mut Run,
    graph: &[u8],
    file: &[u8],
    expected: &Expected<AnchorFile>,
) -> Checked {
    let mut letters = run.lent(LETTERS_SIZE);
    let mut anchors = run.lent(ANCHORS_SIZE);
    run.shorten(15, &mut [&mut letters, &mut anchors]);
    let answer = library::read_anchors(graph, file, letters.buffer(), anchors.buffer());
    let expected = expected.as_ref().map_err(|&refusal| refusal);
    let Some(anchor_file) = accepted("read_anchors", &answer, &[&letters, &anchors], expected)?
    else {
        return Ok(());
    };
    let content = AnchorContent::of(&anchor_file.content);
    let wanted = ToadAnchors {
        letters: content.r,
        anchors: content.count,
        ..ToadAnchors::default()
    };
    answered("read_anchors", &answer, &wanted)?;
    expect!(letters.holds(&content.letters), "read_anchors: letters");
    expect!(anchors.holds(&content.anchors), "read_anchors: anchors");
    let mut out = run.output_for(file);
    let answer = library::write_anchors(
        content.r,
        content.count,
        letters.used(),
        anchors.used(),
        graph,
        out.buffer(),
    );
    given_back("write_anchors", &answer, &out, file)
}

/// One engine. What is expected is a refusal, or the numbers of the line.
fn chaining(
    run: &mut Run,
    graph: &[u8],
    file: &[u8],
    expected: Expected<&[u64]>,
    engine: Engine,
    sweeping: bool,
) -> Checked {
    let name = if sweeping { "sweep" } else { "plain" };
    let mut scores = run.lent(SCORES_SIZE);
    let mut chain = run.lent(CHAIN_SIZE);
    run.shorten(15, &mut [&mut scores, &mut chain]);
    let answer = engine(graph, file, scores.buffer(), chain.buffer());
    let Some(line) = accepted(name, &answer, &[&scores, &chain], expected)? else {
        return Ok(());
    };
    let wanted = ToadChain {
        anchors: line[8] as u32,
        score: line[9] as u32,
        rounds: if sweeping { line[10] as u32 } else { 0 },
        length: line[11] as u32,
        ..ToadChain::default()
    };
    answered(name, &answer, &wanted)?;
    digested(name, &[("scores", &scores), ("chain", &chain)], line[12])
}

/// One case of a writer: kind 1 the graph writer, kind 2 the anchor writer.
fn writer_case(run: &mut Run, kind: u8, bytes: &mut Bytes, line: &str) -> Checked {
    let room = bytes.number() as usize;
    let mut out = run.output(room);
    let (name, answer) = if kind == 1 {
        ("write_graph", graph_writing(bytes, out.buffer()))
    } else {
        ("write_anchors", anchor_writing(bytes, out.buffer()))
    };
    let expected = expected_of(line, "written ");
    let Some(numbers) = accepted(name, &answer, &[&out], expected)? else {
        return Ok(());
    };
    answered(name, &answer, &written(numbers[0] as u32))?;
    let length = numbers[0] as usize;
    let mut digest = Digest::new();
    digest.bytes(&out.used()[..length]);
    expect!(digest.value() == numbers[1], "{name}: other bytes");
    expect!(out.only_front(length), "{name} wrote past the last byte");
    Ok(())
}

/// The graph writer on a case's content.
fn graph_writing(bytes: &mut Bytes, out: &mut [u8]) -> ToadWritten {
    let [n, m, k] = [bytes.number(), bytes.number(), bytes.number()];
    let letters = bytes.letters();
    let lengths = bytes.numbers();
    let edges = bytes.numbers();
    let paths = bytes.numbers();
    let counts = bytes.numbers();
    library::write_graph(n, m, k, &letters, &lengths, &edges, &paths, &counts, out)
}

/// The anchor writer on a case's graph file and content.
fn anchor_writing(bytes: &mut Bytes, out: &mut [u8]) -> ToadWritten {
    let graph = bytes.file();
    let [r, n] = [bytes.number(), bytes.number()];
    let letters = bytes.letters();
    let anchors = bytes.numbers();
    library::write_anchors(r, n, &letters, &anchors, graph, out)
}

/// One case of the letters of an anchor.
fn view_case(_: &mut Run, _: u8, bytes: &mut Bytes, line: &str) -> Checked {
    let graph = bytes.file();
    let anchors = bytes.file();
    let [number, named] = [bytes.number(), bytes.number()];
    let answer = library::letters(graph, anchors, number, named);
    let words: Vec<&str> = line.split(' ').collect();
    let ["file", file, "start", start, "length", length] = words[..] else {
        panic!("a view's line: {line}");
    };
    let [file, start, length] = [file, start, length].map(|word| word.parse().expect("a number"));
    let empty = [file, start, length] == [1, 0, 0];
    expect!(
        empty || file == named,
        "the second program names another file"
    );
    expect!(answer == ToadPart { start, length }, "{answer:?}");
    Ok(())
}
