//! Lists the best chain of graph.bin and anchors.bin in the folder named by the first argument, through the static library.

use std::env;
use std::fs::File;
use std::io::{self, Read, Write};
use std::path::Path;
use std::process::ExitCode;

use toadtrellis::{plain, read_anchors, sweep, Refusal, MOST_FILE_BYTES};

/// The bytes of a file, one more than a file may have at most.
fn load(folder: &Path, name: &str) -> io::Result<Vec<u8>> {
    let mut bytes = Vec::new();
    File::open(folder.join(name))?.take(MOST_FILE_BYTES as u64 + 1).read_to_end(&mut bytes)?;
    Ok(bytes)
}

/// The listing of two files' bytes.
fn listing(graph: &[u8], file: &[u8]) -> Result<String, Refusal> {
    let chain = sweep(graph, file)?;
    let audit = plain(graph, file)?;
    assert_eq!((&chain.scores, &chain.anchors, chain.score), (&audit.scores, &audit.anchors, audit.score));
    let content = read_anchors(graph, file)?;
    let mut lines = format!("anchors {} score {} rounds {}\n", content.anchors.len(), chain.score, chain.rounds);
    for &j in &chain.anchors {
        let a = content.anchors[j as usize - 1];
        let score = chain.scores[j as usize - 1];
        lines += &format!("{} {} {} {} {} {} {}\n", j, a.v, a.x, a.y(), a.c, a.d(), score);
    }
    Ok(lines)
}

fn main() -> ExitCode {
    let folder = env::args_os().nth(1).unwrap_or_else(|| ".".into());
    let graph = load(Path::new(&folder), "graph.bin");
    let file = load(Path::new(&folder), "anchors.bin");
    let (text, status) = match (graph, file) {
        (Err(_), _) => ("no file 1\n".into(), ExitCode::FAILURE),
        (_, Err(_)) => ("no file 2\n".into(), ExitCode::FAILURE),
        (Ok(graph), Ok(file)) => match listing(&graph, &file) {
            Ok(lines) => (lines, ExitCode::SUCCESS),
            Err(refusal) => (format!("{refusal}\n"), ExitCode::FAILURE),
        },
    };
    match io::stdout().write_all(text.as_bytes()) {
        Ok(()) => status,
        Err(_) => ExitCode::FAILURE,
    }
}
