//! Random lists of calls, carried out by two heaps on memory of their own. A
//! list may begin on buffers that hold anything, on empty ones, on a random
//! heap or on one that is to be swept; it has calls with any numbers, wrong lengths, a wrong P, and damage
//! that is done to both memories and perhaps undone some calls later. After
//! each call the answers and every word of the two memories have to be equal.

use std::collections::HashMap;
use std::mem::discriminant;

use peer::layout::{MAX_PAGES, PHASE};
use peer::random::{CallMaker, Random};
use peer::Call;

use crate::damage::{fill_with_anything, random_change, Change};
use crate::heaps::{random_heap, unswept_heap};
use crate::lines::with_one_number_changed;
use crate::memory::{lengths, Lengths, Memory};
use crate::pair::{Difference, Memories, Pair};
use crate::proved::Numbers;
use crate::ways::{Before, Ways};

/// How often each call met each refusal in each phase, and each way of an
/// allocation was taken.
#[derive(Default)]
pub struct Visits {
    pub calls: u64,
    pub cycles: u64,
    pub damages: u64,
    pub ways: Ways,
    seen: HashMap<(std::mem::Discriminant<Call>, u64, u64), (Call, u64)>,
}

impl Visits {
    fn count(&mut self, call: &Call, phase: u64, answer: &Numbers) {
        self.calls += 1;
        let ends_cycle = matches!(call, Call::SweepStep { .. }) && *answer == [0; 4];
        self.cycles += u64::from(ends_cycle);
        let entry = self.seen.entry((discriminant(call), phase, answer[0]));
        entry.or_insert((*call, 0)).1 += 1;
    }

    /// How often the answer was this refusal; 0 for accepted calls.
    pub fn refusals(&self, refusal: u64) -> u64 {
        let seen = self.seen.iter().filter(|(key, _)| key.2 == refusal);
        seen.map(|(_, (_, count))| count).sum()
    }

    /// In how many pairs of a call and a phase the call was accepted, legal
    /// phases alone.
    pub fn accepted_in_phase(&self) -> usize {
        self.seen.keys().filter(|key| key.1 <= 2 && key.2 == 0).count()
    }
}

/// One list on its way.
struct List {
    random: Random,
    maker: CallMaker,
    pages: u64,
    /// Pages that the memory has room for.
    room: u64,
    memories: Memories,
    /// The call that is the first setup, if the list needs one.
    setup_at: Option<u64>,
    /// Shares in a thousand of damage, of wild calls, of calls with one wrong
    /// number and of odd lengths.
    damage_share: u64,
    wild_share: u64,
    wrong_share: u64,
    odd_share: u64,
    /// What undoes the damage that was done last.
    undo: Vec<Change>,
}

impl List {
    fn new(random: Random, pages: u64, unswept: bool) -> List {
        let mut random = random;
        let maker = CallMaker::new(&mut random, pages);
        let room = pages + random.below(2);
        let (memory, setup_at) = if unswept {
            (unswept_heap(&mut random, pages, room, maker.sizes()), None)
        } else {
            first_memory(&mut random, pages, room)
        };
        List {
            maker,
            pages,
            room,
            memories: Memories::new(pages, memory),
            setup_at,
            damage_share: random.pick(&[0, 0, 3, 30, 300]),
            wild_share: random.pick(&[0, 10, 50]),
            wrong_share: random.pick(&[0, 10, 100]),
            odd_share: random.pick(&[0, 2, 20]),
            undo: Vec::new(),
            random,
        }
    }

    /// Carries out the next call on both sides, which then have to be equal.
    fn step(&mut self, step: u64, pair: &Pair, visits: &mut Visits) -> Result<(), Box<Difference>> {
        self.damage_or_repair(visits);
        let call = self.next_call(step);
        let lengths = self.next_lengths(&call);
        let phase = self.memories.plain.roots()[PHASE];
        let before = self.before(&call, lengths);
        let result = self.memories.carry_out(&call, lengths, pair);
        let answer = match &result {
            Ok(answer) => answer,
            Err(difference) => &difference.plain,
        };
        visits.count(&call, phase, answer);
        if let Some(before) = before {
            let table = self.memories.plain.lend(lengths).table;
            visits.ways.count(&before.ways(&call, answer, table));
        }
        result.map(|_| ())
    }

    /// What an allocation finds, if the lengths are those that it asks for.
    fn before(&mut self, call: &Call, lengths: Lengths) -> Option<Before> {
        let lent = self.memories.plain.lend(lengths);
        let allocates = matches!(call, Call::Allocate { .. }) && lent.fit(call.pages());
        allocates.then(|| Before::new(&lent))
    }

    fn next_call(&mut self, step: u64) -> Call {
        if self.setup_at == Some(step) {
            return Call::Setup { pages: self.pages };
        }
        let before_setup = self.setup_at.is_some_and(|setup| step < setup);
        if before_setup || self.random.chance(self.wild_share) {
            return self.maker.wild_call(&mut self.random);
        }
        let call = self.maker.next(&mut self.random, self.memories.plain.roots());
        if self.random.chance(self.wrong_share) {
            return with_one_number_changed(&mut self.random, call);
        }
        call
    }

    /// Mostly those of the list's P, now and then those of the call's own P,
    /// or one of them odd.
    fn next_lengths(&mut self, call: &Call) -> Lengths {
        let usual = lengths(self.pages);
        if call.pages() <= self.room && self.random.chance(500) {
            return lengths(call.pages());
        }
        if !self.random.chance(self.odd_share) {
            return usual;
        }
        let mut odd = usual;
        let longest = self.memories.plain.longest();
        let buffer = self.random.below(4) as usize;
        let (length, most) = (usual[buffer], longest[buffer]);
        let any = self.random.below(most as u64 + 1) as usize;
        odd[buffer] = self.random.pick(&[0, 1, length - 1, length + 1, length / 2, most, any]);
        odd
    }

    fn damage_or_repair(&mut self, visits: &mut Visits) {
        if self.undo.is_empty() {
            if self.random.chance(self.damage_share) {
                visits.damages += 1;
                self.damage();
            }
        } else if self.random.chance(300) {
            for (place, value) in std::mem::take(&mut self.undo).into_iter().rev() {
                self.memories.set(place, value);
            }
        } else if self.random.chance(30) {
            self.undo.clear();
        }
    }

    fn damage(&mut self) {
        for _ in 0..1 + self.random.below(3) {
            let plain = &self.memories.plain;
            let (place, value) = random_change(&mut self.random, plain, self.pages);
            self.undo.push((place, plain.get(place)));
            self.memories.set(place, value);
        }
    }
}

/// What a list begins on, and which call has to be its first setup.
fn first_memory(random: &mut Random, pages: u64, room: u64) -> (Memory, Option<u64>) {
    if random.chance(400) {
        return (random_heap(random, pages, room), None);
    }
    let mut memory = Memory::new(room);
    if random.chance(500) {
        fill_with_anything(random, &mut memory, pages);
    }
    (memory, Some(random.below(4)))
}

/// How many pages and calls a list has: few lists are long or have many pages.
fn extent(random: &mut Random) -> (u64, u64) {
    if random.chance(15) {
        return (random.pick(&[64, 150, 255, MAX_PAGES]), 10 + random.below(80));
    }
    let pages = random.pick(&[1, 1, 1, 1, 1, 2, 2, 2, 3, 3, 5, 8, 13]);
    let length = match random.below(40) {
        0 => 1000 + random.below(4000),
        1..=12 => 1 + random.below(30),
        _ => 20 + random.below(400),
    };
    (pages, length)
}

/// The same for a list on a heap that is to be swept, which does not last.
fn unswept_extent(random: &mut Random) -> (u64, u64) {
    (random.pick(&[1, 2, 3, 4, 6, 9, 13, 20]), 5 + random.below(40))
}

/// Carries out the list of this number; the same seed gives the same list.
pub fn run_list(
    seed: u64,
    list: u64,
    pair: &Pair,
    visits: &mut Visits,
) -> Result<(), Box<Difference>> {
    let mut random = Random::new(Random::new(seed).number() ^ Random::new(list).number());
    let unswept = random.chance(300);
    let (pages, length) = if unswept { unswept_extent(&mut random) } else { extent(&mut random) };
    let mut running = List::new(random, pages, unswept);
    for step in 0..length {
        running.step(step, pair, visits)?;
    }
    Ok(())
}
