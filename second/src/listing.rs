//! The listing of `chainlist`.

use std::path::Path;

use crate::judge::judge;

/// The text for the two files, each as it was read or not. Every line ends
/// with one LF.
///
/// "A refusal prints `refused NUMBER file FILE place PLACE`; a file that
/// cannot be opened or read, `no file 1` or `no file 2`, both being read, the
/// graph file first, before either is checked. Only that line is printed."
pub fn listing(graph_file: Option<&[u8]>, anchor_file: Option<&[u8]>) -> String {
    let Some(graph_bytes) = graph_file else {
        return "no file 1\n".to_string();
    };
    let Some(anchor_bytes) = anchor_file else {
        return "no file 2\n".to_string();
    };
    let results = match judge(graph_bytes, anchor_bytes) {
        Ok(results) => results,
        Err(refusal) => return refusal.line() + "\n",
    };
    // "Its first line gives N, the greatest score and the rounds; then for
    // each chain anchor: number v x y c d and the score ending there."
    let anchors = &results.anchors.content.anchors;
    let chaining = &results.chaining;
    let mut text = format!(
        "anchors {} score {} rounds {}\n",
        anchors.len(),
        chaining.score,
        chaining.rounds
    );
    for &number in &chaining.chain {
        let anchor = anchors[number as usize - 1];
        text += &format!(
            "{} {} {} {} {} {} {}\n",
            number,
            anchor.v,
            anchor.x,
            anchor.y(),
            anchor.c,
            anchor.d(),
            chaining.scores[number as usize - 1]
        );
    }
    text
}

/// The listing of `graph.bin` and `anchors.bin` in a folder.
pub fn listing_of_folder(folder: &Path) -> String {
    let graph_file = std::fs::read(folder.join("graph.bin")).ok();
    let anchor_file = std::fs::read(folder.join("anchors.bin")).ok();
    listing(graph_file.as_deref(), anchor_file.as_deref())
}
