//! Random lists of calls. After every call the ledger, both audits and the
//! slow heap have to agree with the heap, and the lists have to have been
//! everywhere: each call in each phase, each refusal, ended cycles.

mod common;

use std::collections::HashSet;

use common::{refusal, seed, times, Harness, Owned};
use peer::layout::PHASE;
use peer::random::{CallMaker, Random};
use peer::Call;

/// Where the lists have been: name of the call, phase before, refusal.
type Visited = HashSet<(String, u64, u64)>;

fn name(call: &Call) -> String {
    format!("{call:?}").split(' ').next().unwrap().to_string()
}

fn one_list(random: &mut Random, visited: &mut Visited, pages: u64, length: u64) {
    let mut maker = CallMaker::new(random, pages);
    let mut harness = Harness::new(Owned::random(pages, random), peer::apply);
    let mut done = Vec::new();
    for place in 0..length {
        // Before the first setup the buffers hold anything.
        let call = match place {
            0 => maker.wild_call(random),
            1 => Call::Setup { pages },
            _ => maker.next(random, &harness.owned.roots),
        };
        done.push(call);
        let phase = harness.owned.roots[PHASE];
        match harness.step(&call) {
            Ok(answer) => visited.insert((name(&call), phase, refusal(&answer))),
            Err(caught) => panic!("P = {pages}, call {place}: {caught:?}\n{done:#?}"),
        };
    }
}

#[test]
fn random_lists_agree_with_ledger_and_slow_heap() {
    let mut random = Random::new(seed(20_171_025));
    let mut visited = Visited::new();
    for _ in 0..times(600) {
        let pages = random.pick(&[1, 1, 1, 1, 2, 2, 3, 5, 8, 13]);
        let length = 20 + random.below(400);
        one_list(&mut random, &mut visited, pages, length);
    }
    // Number 8 is no longer given.
    for refusal in 0..=12 {
        let expected = ![8, 11].contains(&refusal);
        assert_eq!(visited.iter().any(|seen| seen.2 == refusal), expected, "refusal {refusal}");
    }
    let accepted = |call: &str, phase| visited.contains(&(call.to_string(), phase, 0));
    let any_phase =
        ["Setup", "Allocate", "Copy", "Clear", "Load", "Store", "Put", "Get", "LoadGlobal"];
    let more = ["StoreGlobal", "Open", "Close", "Audit"];
    for call in any_phase.iter().chain(&more) {
        assert!((0..3).all(|phase| accepted(call, phase)), "{call}");
    }
    assert!(accepted("Start", 0) && accepted("SweepStep", 2));
    assert!(["ScanStack", "ScanGlobals", "MarkStep", "Finish"].iter().all(|c| accepted(c, 1)));
}

#[test]
fn random_lists_on_many_pages() {
    let mut random = Random::new(seed(64));
    let mut visited = Visited::new();
    for _ in 0..times(6) {
        let pages = random.pick(&[64, 150, 255, 256]);
        one_list(&mut random, &mut visited, pages, 120);
    }
}
