//! Chains and scores.

use crate::anchor_file::Anchor;
use crate::graph_file::Graph;
use crate::tables::{Cover, Tables};
use crate::walks::Walks;

/// Up to this many anchors the best scores are also found by going through
/// every chain there is.
pub const FEW: usize = 10;

/// The steps there are: for each anchor B (place number - 1) every anchor A
/// that comes before it, in rising number, with the gap sum.
pub struct Steps {
    pub into: Vec<Vec<(usize, i64)>>,
}

/// The scores, the rounds, the greatest score and the named chain (anchor
/// numbers in read order). With no anchors all of it is empty or 0.
#[derive(Clone, Debug, PartialEq, Eq)]
pub struct Chaining {
    pub scores: Vec<i64>,
    pub rounds: u32,
    pub score: i64,
    pub chain: Vec<u32>,
}

/// "A comes before B when A.d < B.c and either A.v = B.v with A.y < B.x, or a
/// walk of at least one edge goes from A.v to B.v."
pub fn comes_before(a: &Anchor, b: &Anchor, walks: &Walks) -> bool {
    a.d() < u64::from(b.c)
        && (a.v == b.v && a.y() < u64::from(b.x)
            || walks.walk_of_an_edge(a.v as usize, b.v as usize))
}

/// "Read gap = B.c - A.d - 1."
pub fn read_gap(a: &Anchor, b: &Anchor) -> i64 {
    i64::from(b.c) - a.d() as i64 - 1
}

/// "Graph gap = s + B.x - 1 - A.y, where s is 0 in the first case, the closed
/// walk if A.v = B.v otherwise, and the cover distance if the vertices
/// differ."
pub fn graph_gap(a: &Anchor, b: &Anchor, tables: &Tables, cover: &Cover) -> i64 {
    let s = if a.v == b.v && a.y() < u64::from(b.x) {
        0
    } else if a.v == b.v {
        i64::from(tables.closed[a.v as usize - 1])
    } else {
        let distance = cover.distance(a.v as usize, b.v as usize);
        distance.expect("a cover distance exists exactly when there is a walk") as i64
    };
    s + i64::from(b.x) - 1 - a.y() as i64
}

/// Every step between the given anchors, with the sum of its two gaps.
pub fn make_steps(graph: &Graph, anchors: &[Anchor], walks: &Walks, tables: &Tables) -> Steps {
    let cover = Cover::new(graph, tables);
    let mut into = Vec::new();
    for b in anchors {
        let mut steps = Vec::new();
        for (index, a) in anchors.iter().enumerate() {
            if !comes_before(a, b, walks) {
                continue;
            }
            let on_read = read_gap(a, b);
            let on_graph = graph_gap(a, b, tables, &cover);
            // Gaps are never negative, and no candidate is under -98,297.
            assert!(on_read >= 0 && on_graph >= 0);
            assert!(candidate(1, 1, on_read + on_graph) >= -98_297);
            steps.push((index, on_read + on_graph));
        }
        into.push(steps);
    }
    Steps { into }
}

/// The step's candidate: the score of A plus the weight of B less the gaps. It
/// may fall below zero.
pub fn candidate(score_of_a: i64, weight_of_b: u32, gaps: i64) -> i64 {
    score_of_a + i64::from(weight_of_b) - gaps
}

/// The sweep: "scores start at the weights; a round takes anchors in rising
/// number, in place, each score becoming the greatest of itself and all
/// candidates. The quiet round counts and ends it." With no anchors no rounds.
pub fn sweep(anchors: &[Anchor], steps: &Steps) -> (Vec<i64>, u32) {
    let mut scores: Vec<i64> = anchors
        .iter()
        .map(|anchor| i64::from(anchor.weight))
        .collect();
    if anchors.is_empty() {
        return (scores, 0);
    }
    let mut rounds = 0;
    loop {
        rounds += 1;
        let mut quiet = true;
        for (b, anchor) in anchors.iter().enumerate() {
            let mut score = scores[b];
            for &(a, gaps) in &steps.into[b] {
                score = score.max(candidate(scores[a], anchor.weight, gaps));
            }
            if score != scores[b] {
                scores[b] = score;
                quiet = false;
            }
        }
        if quiet {
            break;
        }
    }
    // "A round that changes nothing comes no later than round N."
    assert!(rounds as usize <= anchors.len());
    (scores, rounds)
}

/// The plain pass: pairs in read order. An anchor that comes before another
/// has the smaller c, so its score is finished when it is asked for.
pub fn plain(anchors: &[Anchor], steps: &Steps) -> Vec<i64> {
    let mut order: Vec<usize> = (0..anchors.len()).collect();
    order.sort_by_key(|&index| anchors[index].c);
    let mut scores: Vec<Option<i64>> = vec![None; anchors.len()];
    for b in order {
        let mut best = i64::from(anchors[b].weight);
        for &(a, gaps) in &steps.into[b] {
            let score_of_a = scores[a].expect("finished before, in read order");
            best = best.max(candidate(score_of_a, anchors[b].weight, gaps));
        }
        scores[b] = Some(best);
    }
    scores
        .into_iter()
        .map(|score| score.expect("every anchor is taken"))
        .collect()
}

/// The best of all chains ending at each anchor, by going through every chain
/// of one or more anchors and taking its weights less its gaps. For few
/// anchors only. Also answers how many chains there are.
pub fn best_of_all_chains(anchors: &[Anchor], steps: &Steps) -> (Vec<i64>, u64) {
    let mut best: Vec<Option<i64>> = vec![None; anchors.len()];
    let mut chains = 0;
    // A chain is grown at its end; `chain` holds places, `steps` its steps.
    let mut open: Vec<Vec<usize>> = (0..anchors.len()).map(|index| vec![index]).collect();
    while let Some(chain) = open.pop() {
        chains += 1;
        let end = chain[chain.len() - 1];
        let score = score_of_chain(anchors, steps, &chain).expect("each comes before the next");
        if best[end].is_none_or(|b| score > b) {
            best[end] = Some(score);
        }
        for b in 0..anchors.len() {
            if steps.into[b].iter().any(|&(a, _)| a == end) {
                let mut longer = chain.clone();
                longer.push(b);
                open.push(longer);
            }
        }
    }
    let best = best
        .into_iter()
        .map(|b| b.expect("each anchor alone is a chain"))
        .collect();
    (best, chains)
}

/// "A chain is one or more anchors, each before the next; score = weights less
/// gaps." None if the places given are no chain.
pub fn score_of_chain(anchors: &[Anchor], steps: &Steps, chain: &[usize]) -> Option<i64> {
    if chain.is_empty() {
        return None;
    }
    let mut score: i64 = 0;
    for &index in chain {
        score += i64::from(anchors[index].weight);
    }
    for pair in chain.windows(2) {
        let &(_, gaps) = steps.into[pair[1]].iter().find(|&&(a, _)| a == pair[0])?;
        score -= gaps;
    }
    Some(score)
}

/// The named chain. "The chain returned ends at the lowest-numbered anchor of
/// greatest score. Going back from an anchor: stop if its score is its weight,
/// else take the lowest-numbered anchor that gives its score. It is listed in
/// read order."
pub fn named_chain(anchors: &[Anchor], steps: &Steps, scores: &[i64]) -> (i64, Vec<u32>) {
    if anchors.is_empty() {
        return (0, Vec::new());
    }
    let mut end = 0;
    for index in 1..anchors.len() {
        if scores[index] > scores[end] {
            end = index;
        }
    }
    let mut back = vec![end];
    let mut b = end;
    while scores[b] != i64::from(anchors[b].weight) {
        let &(a, _) = steps.into[b]
            .iter()
            .find(|&&(a, gaps)| candidate(scores[a], anchors[b].weight, gaps) == scores[b])
            .expect("a score above the weight is given by some anchor");
        back.push(a);
        b = a;
    }
    back.reverse();
    (
        scores[end],
        back.iter().map(|&index| index as u32 + 1).collect(),
    )
}

/// All of it, every way there is, compared.
pub fn make_chaining(
    graph: &Graph,
    anchors: &[Anchor],
    walks: &Walks,
    tables: &Tables,
) -> Chaining {
    let steps = make_steps(graph, anchors, walks, tables);
    let (scores, rounds) = sweep(anchors, &steps);
    assert_eq!(scores, plain(anchors, &steps), "sweep and plain pass");
    if anchors.len() <= FEW {
        let (best, _) = best_of_all_chains(anchors, &steps);
        assert_eq!(scores, best, "sweep and the best of all chains");
    }
    for (anchor, &score) in anchors.iter().zip(&scores) {
        // Never under its weight; and no score passes the sum of all weights.
        assert!(score >= i64::from(anchor.weight) && score <= 134_215_680);
    }
    let (score, chain) = named_chain(anchors, &steps, &scores);
    check_named_chain(anchors, &steps, &scores, score, &chain);
    Chaining {
        scores,
        rounds,
        score,
        chain,
    }
}

/// The named chain is valid, has the score, and ends where it should; every
/// front part of it has the best score ending at its last anchor; c and d rise
/// strictly along it.
fn check_named_chain(anchors: &[Anchor], steps: &Steps, scores: &[i64], score: i64, chain: &[u32]) {
    if anchors.is_empty() {
        assert!(chain.is_empty() && score == 0);
        return;
    }
    let places: Vec<usize> = chain.iter().map(|&number| number as usize - 1).collect();
    assert_eq!(score_of_chain(anchors, steps, &places), Some(score));
    assert_eq!(scores.iter().copied().max(), Some(score));
    let mut along = 0;
    for (index, &place) in places.iter().enumerate() {
        along += i64::from(anchors[place].weight);
        if index > 0 {
            let before = places[index - 1];
            let step = steps.into[place].iter().find(|&&(a, _)| a == before);
            along -= step.expect("each comes before the next").1;
            let (a, b) = (&anchors[before], &anchors[place]);
            assert!(a.c < b.c && a.d() < b.d());
        }
        assert_eq!(along, scores[place]);
    }
}
