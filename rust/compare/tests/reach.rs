//! The cases reach what they must: every call accepted and refused with every number that it can give, every question
//! with none, 0 and more where it can tell that, every m, both ways of finding a bin, every source of a small and of a large
//! need, grants from a bin where chunks of several sizes can serve, every spot of a large bin for all that is put there, heaps
//! in which nothing but the order of a list is wrong, long chains, damage that the check refuses, every turn of the patrol's
//! rule, and joinings that swallow its place.

use compare::broken::COPIES;
use compare::case::{self, Stage};
use compare::judge::{Link, Walk, Words};
use compare::puts::{in_order, large_lists, puts, Member, Origin, Spot, ORIGINS, SPOTS};
use compare::side::{Action, Answers, Side};
use compare::view::{heap_bytes, index, small_bins, View, BACKWARD, IN_USE, SIZE};
use kruzhvela::flat::{
    Answer, Record, ANSWER_NONE, ANSWER_OFFSET, ANSWER_REFUSAL, ANSWER_VALUE, BINS, BYTES, CHECK_CHUNKS, PATROL, SIZES,
};
use kruzhvela::limits::{ALIGNMENT, FEWEST_WORDS, HEADER_BYTES, LEAST_CHUNK, MOST_BINS, MOST_WORDS};
use kruzhvela::Refusal;
use second::Call;
use std::collections::BTreeMap;

/// Counts the answers of `second`.
struct Tally {
    side: Side,
    /// Counts by the call's name and the refusal's number.
    answers: BTreeMap<(&'static str, u32), u64>,
    /// Counts of what accepted questions tell, by the call's name and the question's number.
    told: BTreeMap<(&'static str, u32, Told), u64>,
    /// Counts of accepted setups by m.
    setups: BTreeMap<usize, u64>,
    /// Counts of needs by the way to their bin.
    ways: BTreeMap<Way, u64>,
    /// Counts of new blocks by the call's name, the need's sort and the source.
    sources: BTreeMap<(&'static str, Need, Source), u64>,
    /// Counts of new blocks from a bin by the call's name, the source and the fit.
    fits: BTreeMap<(&'static str, Source, Fit), u64>,
    /// Counts of chunks put into bins outside the small array.
    puts: BTreeMap<(Origin, Spot), u64>,
    /// Counts of calls on heaps in which nothing but the order of a list is wrong, by the call's name and the refusal's
    /// number.
    unordered: BTreeMap<(&'static str, u32), u64>,
    /// How often equal members of a list changed places, so that the heap still passes.
    equals_exchanged: u64,
    /// The lists of the bins outside the small array, as the last call left them.
    lists: Vec<Vec<Member>>,
    most_chunks: u32,
    /// Counts of the turns of patrols, and of swallowed places by the call that joined.
    turns: BTreeMap<&'static str, u64>,
}

/// The way to the bin of a need: the division, or a search that halves the table at most so often.
#[derive(Clone, Copy, Debug, PartialEq, Eq, PartialOrd, Ord)]
enum Way {
    Division,
    Halving(u32),
}

/// A need by the table: small; or large, where no need is small (m is 0) and where some are.
#[derive(Clone, Copy, Debug, PartialEq, Eq, PartialOrd, Ord)]
enum Need {
    Small,
    Large,
    LargeOfNoSmall,
}

/// Where a new block comes from.
#[derive(Clone, Copy, Debug, PartialEq, Eq, PartialOrd, Ord)]
enum Source {
    OwnBin,
    LargerBin,
    Donor,
    Top,
}

/// The chunk of a bin from which a block comes, among the ordinary chunks that can serve.
#[derive(Clone, Copy, Debug, PartialEq, Eq, PartialOrd, Ord)]
enum Fit {
    /// None has another size.
    OneSize,
    /// Some are larger, none is smaller.
    Smallest,
    NotSmallest,
}

/// What a question tells.
#[derive(Clone, Copy, Debug, PartialEq, Eq, PartialOrd, Ord)]
enum Told {
    Nothing,
    Zero,
    More,
}

fn told(answer: Answer) -> Told {
    match (answer[ANSWER_NONE], answer[ANSWER_VALUE]) {
        (1, _) => Told::Nothing,
        (_, 0) => Told::Zero,
        _ => Told::More,
    }
}

fn name(call: &Call) -> &'static str {
    match call {
        Call::Setup { .. } => "setup",
        Call::Allocate { .. } => "allocate",
        Call::AllocateCleared { .. } => "allocate_cleared",
        Call::Free { .. } => "free",
        Call::Reallocate { .. } => "reallocate",
        Call::SetMerge { .. } => "set_merge",
        Call::Check => "check",
        Call::AskChunk { .. } => "ask_chunk",
        Call::AskBin { .. } => "ask_bin",
        Call::Patrol { .. } => "patrol",
    }
}

/// What a block of so many bytes needs.
fn need(bytes: u32) -> u32 {
    (bytes + HEADER_BYTES).next_multiple_of(ALIGNMENT).max(LEAST_CHUNK)
}

fn is_small(record: &Record, need: u32) -> bool {
    need < LEAST_CHUNK + ALIGNMENT * small_bins(record) as u32
}

/// The way to the bin of what a block of so many bytes needs.
fn way(record: &Record, bytes: u32) -> Way {
    if is_small(record, need(bytes)) {
        Way::Division
    } else {
        Way::Halving(record[BINS].next_power_of_two().ilog2())
    }
}

fn sort(record: &Record, need: u32) -> Need {
    match small_bins(record) {
        _ if is_small(record, need) => Need::Small,
        0 => Need::LargeOfNoSmall,
        _ => Need::Large,
    }
}

/// The last bin whose size is not above this one.
fn bin(record: &Record, size: u32) -> usize {
    record[SIZES..][..record[BINS] as usize].partition_point(|&least| least <= size)
}

/// The source of a new block: the lowest bytes of a chunk are granted, so it starts where the chunk did.
fn source(before: &View, record: &Record, need: u32, block: u32) -> Source {
    match block - HEADER_BYTES {
        place if place == before.donor => Source::Donor,
        place if place == before.top => Source::Top,
        place if bin(record, before.size_at(place)) == bin(record, need) => Source::OwnBin,
        _ => Source::LargerBin,
    }
}

/// How the chunk that the block lies in fits, by the chain before the call.
fn fit(before: &View, need: u32, block: u32) -> Fit {
    let taken = before.chunks.iter().find(|c| c.place < block && block < c.place + c.size).expect("a chunk");
    let serving: Vec<u32> = before.ordinary().iter().map(|c| c.size).filter(|&size| size >= need).collect();
    match (serving.iter().any(|&size| size < taken.size), serving.iter().any(|&size| size > taken.size)) {
        (true, _) => Fit::NotSmallest,
        (_, true) => Fit::Smallest,
        _ => Fit::OneSize,
    }
}

/// The bytes that an accepted call asked for, if it granted a new block.
fn bytes_of_new(call: &Call, answer: Answer) -> Option<u32> {
    match *call {
        Call::Allocate { z } => Some(z),
        Call::AllocateCleared { count, size } => Some(count.wrapping_mul(size)),
        Call::Reallocate { block, z } => (block != answer[ANSWER_OFFSET]).then_some(z),
        _ => None,
    }
}

/// The check passes if this heap answers it.
fn passes(answers: Answers, side: &Side) -> bool {
    answers(&Call::Check, &mut side.region.clone(), &mut side.record.clone())[ANSWER_REFUSAL] == 0
}

/// The heap fails, but would pass if the check did not ask for the order.
fn order_alone(side: &Side) -> bool {
    let not_asked = COPIES.iter().find(|(name, _)| *name == "order_not_asked").expect("a copy").1;
    !passes(second::apply, side) && passes(not_asked, side)
}

/// Some list has the same members in another order.
fn exchanged(before: &[Vec<Member>], after: &[Vec<Member>]) -> bool {
    let same = |one: &[Member], other: &[Member]| one.len() == other.len() && one.iter().all(|m| other.contains(m));
    before.len() == after.len() && before.iter().zip(after).any(|(one, other)| one != other && same(one, other))
}

fn link_turn(link: Link) -> &'static str {
    match link {
        Link::Believed => "a link is believed",
        Link::BelievedOverOther => "a link is believed over a place that does not name the same",
        Link::LeavesTheHeap => "a link leaves the heap",
        Link::NoMultipleOf8 => "a link is no multiple of 8",
        Link::TooNear => "a link goes up by less than 24",
        Link::TooNearTheStart => "the start's link goes up by less than 8",
        Link::Skips => "a link skips a chunk",
    }
}

fn walk_turn(walk: Walk) -> &'static str {
    match walk {
        Walk::Found(_) => "the walk finds the next chunk",
        Walk::LeavesTheHeap => "the walk meets a link that leaves the heap",
        Walk::NotDown => "the walk meets a link that does not go down",
        Walk::TooNear => "the walk meets a link down by less than 24",
        Walk::TooNearTheBroken => "the walk comes to the broken chunk from too near",
        Walk::PassesBelow => "the walk passes below the broken chunk",
    }
}

/// The words that are wrong around a chunk and the next one.
fn mends(words: Words, place: u32, next: u32) -> Vec<&'static str> {
    let back = words.0[index(place, BACKWARD)];
    let wrong_size = place != 0 && words.0[index(place, SIZE)] != next - place;
    let flags = words.0[index(next, BACKWARD)] % ALIGNMENT;
    let found = [
        (words.below(next) != place, "a backward link is mended"),
        (words.below(next) != place && flags > IN_USE, "a backward link is mended beside spare flags"),
        (place == 0 && words.below(0) != 0, "the start's backward link is mended"),
        (place == 0 && back & IN_USE == 0, "the start's flags say free"),
        (wrong_size && back & IN_USE == 0, "a free size is mended"),
        (wrong_size && back & IN_USE != 0, "a chunk in use has another word in that place"),
    ];
    found.into_iter().filter(|&(holds, _)| holds).map(|(_, name)| name).collect()
}

/// The turns of a run that is not refused with 4 or 10, on the words as they came.
fn run_turns(words: Words, from: u32, chunks: u32) -> Vec<&'static str> {
    let mut turns = Vec::new();
    let mut place = from;
    for handled in 0..chunks {
        if place == words.end() {
            turns.push(if handled == 0 { "a run begins at the end chunk" } else { "a run comes to the end chunk" });
            return turns;
        }
        let link = words.judged(place);
        turns.push(link_turn(link));
        if !link.is_believed() {
            turns.push(walk_turn(words.walked(place)));
        }
        let Some(next) = words.next(place) else {
            turns.extend(turns.contains(&"a backward link is mended").then_some("12 after something to mend"));
            return turns;
        };
        turns.extend(mends(words, place, next));
        place = next;
    }
    turns.push("a run ends before the end chunk");
    turns
}

/// Why a run is refused with 4, if it is.
fn refused_turn(region: &[u32], record: &Record) -> Option<&'static str> {
    let (bytes, place) = (heap_bytes(region.len()), record[PATROL]);
    match region.len() {
        words if !(FEWEST_WORDS..=MOST_WORDS).contains(&words) => Some("4 for the region's length"),
        _ if record[BYTES] != bytes => Some("4 for the heap bytes"),
        _ if place % ALIGNMENT != 0 => Some("4 for a place that is no multiple of 8"),
        _ if place >= bytes => Some("4 for a place above the end chunk"),
        _ => None,
    }
}

/// The turns of a run, before it is made.
fn patrol_turns(side: &Side, chunks: u32) -> Vec<&'static str> {
    if chunks == 0 {
        return vec!["a run of no chunks"];
    }
    match refused_turn(&side.region, &side.record) {
        Some(turn) => vec![turn],
        None => run_turns(Words(&side.region), side.record[PATROL], chunks),
    }
}

/// How an accepted call that moved the place came to swallow it.
fn swallow_turn(call: &Call, answer: Answer) -> Option<&'static str> {
    match *call {
        Call::Free { .. } => Some("free swallows the place"),
        Call::Reallocate { block, .. } if block == answer[ANSWER_OFFSET] => Some("a tail swallows the place"),
        Call::Reallocate { .. } => Some("the old block of a move swallows the place"),
        _ => None,
    }
}

impl Tally {
    fn new() -> Tally {
        Tally {
            side: Side::new(second::apply),
            answers: BTreeMap::new(),
            told: BTreeMap::new(),
            setups: BTreeMap::new(),
            ways: BTreeMap::new(),
            sources: BTreeMap::new(),
            fits: BTreeMap::new(),
            puts: BTreeMap::new(),
            unordered: BTreeMap::new(),
            equals_exchanged: 0,
            lists: Vec::new(),
            most_chunks: 0,
            turns: BTreeMap::new(),
        }
    }

    fn count_answer(&mut self, call: &Call, answer: Answer) {
        *self.answers.entry((name(call), answer[ANSWER_REFUSAL])).or_default() += 1;
        if matches!(call, Call::Setup { .. }) && answer[ANSWER_REFUSAL] == 0 {
            *self.setups.entry(small_bins(&self.side.record)).or_default() += 1;
        }
        if let (&Call::Allocate { z }, None | Some(Refusal::NoRoom)) = (call, Refusal::of(answer[ANSWER_REFUSAL])) {
            *self.ways.entry(way(&self.side.record, z)).or_default() += 1;
        }
        if let Call::AskChunk { question, .. } | Call::AskBin { question, .. } = *call {
            if answer[ANSWER_REFUSAL] == 0 {
                *self.told.entry((name(call), question, told(answer))).or_default() += 1;
            }
        }
        if *call == Call::Check {
            self.most_chunks = self.most_chunks.max(answer[CHECK_CHUNKS]);
        }
    }

    /// `before`: the heap before the call.
    fn count_source(&mut self, before: &View, call: &Call, answer: Answer) {
        if let (0, Some(bytes)) = (answer[ANSWER_REFUSAL], bytes_of_new(call, answer)) {
            let (record, need) = (&self.side.record, need(bytes));
            let source = source(before, record, need, answer[ANSWER_OFFSET]);
            *self.sources.entry((name(call), sort(record, need), source)).or_default() += 1;
            if matches!(source, Source::OwnBin | Source::LargerBin) {
                let fit = fit(before, need, answer[ANSWER_OFFSET]);
                *self.fits.entry((name(call), source, fit)).or_default() += 1;
            }
        }
    }

    /// `lists`: the large bins before the call. They differ from what the last call left only by damage.
    fn count_order(&mut self, lists: &[Vec<Member>], unordered: bool, call: &Call, answer: Answer) {
        if unordered {
            *self.unordered.entry((name(call), answer[ANSWER_REFUSAL])).or_default() += 1;
        }
        let accepted = answer[ANSWER_REFUSAL] == 0 && !matches!(call, Call::Setup { .. });
        let after = large_lists(&self.side);
        if accepted {
            for put in puts(lists, &after, call, answer) {
                *self.puts.entry(put).or_default() += 1;
            }
            // a list that is put back was not in order
            self.equals_exchanged += u64::from(in_order(&self.lists) && exchanged(&self.lists, lists));
        }
        self.lists = after;
    }

    fn count_turns(&mut self, turns: impl IntoIterator<Item = &'static str>) {
        for turn in turns {
            *self.turns.entry(turn).or_default() += 1;
        }
    }
}

impl Stage for Tally {
    fn play(&mut self, action: Action) -> Option<Answer> {
        if let Action::Call(Call::Patrol { chunks }) = action {
            self.count_turns(patrol_turns(&self.side, chunks));
        }
        let place = self.side.record[PATROL];
        let before = case::view(self);
        let lists = large_lists(&self.side);
        let unordered = matches!(action, Action::Call(_)) && !in_order(&lists) && order_alone(&self.side);
        let answer = self.side.play(&action);
        if let (Action::Call(call), Some(answer)) = (action, answer) {
            self.count_answer(&call, answer);
            self.count_source(&before, &call, answer);
            self.count_order(&lists, unordered, &call, answer);
            if place != self.side.record[PATROL] {
                self.count_turns(swallow_turn(&call, answer));
            }
        }
        answer
    }

    fn side(&self) -> &Side {
        &self.side
    }
}

/// The numbers that each call can give, and gives. Any other is a fault.
const NUMBERS: [(&str, &[u32]); 10] = [
    ("setup", &[0, 1, 2, 3]),
    ("allocate", &[0, 4, 5, 7]),
    ("allocate_cleared", &[0, 4, 5, 7]),
    ("free", &[0, 4, 6]),
    ("reallocate", &[0, 4, 5, 6, 7]),
    ("set_merge", &[0, 4]),
    ("check", &[0, 4]),
    ("ask_chunk", &[0, 4, 8]),
    ("ask_bin", &[0, 4, 8]),
    ("patrol", &[0, 4, 10, 12]),
];

/// The sources of each sort of need.
const SOURCES: [Source; 4] = [Source::OwnBin, Source::LargerBin, Source::Donor, Source::Top];

/// All that each question can tell, by the call and the question's number. For instance, the chunk of a live block is
/// never at 0, and a size is never none.
const TOLD: [(&str, u32, &[Told]); 12] = [
    ("ask_chunk", 1, &[Told::Nothing, Told::Zero, Told::More]),
    ("ask_chunk", 2, &[Told::Nothing, Told::More]),
    ("ask_chunk", 3, &[Told::More]),
    ("ask_chunk", 4, &[Told::Nothing, Told::More]),
    ("ask_chunk", 5, &[Told::Nothing, Told::More]),
    ("ask_chunk", 6, &[Told::Nothing, Told::Zero, Told::More]),
    ("ask_chunk", 7, &[Told::Nothing, Told::More]),
    ("ask_chunk", 8, &[Told::More]),
    ("ask_chunk", 9, &[Told::Zero, Told::More]),
    ("ask_bin", 1, &[Told::Zero, Told::More]),
    ("ask_bin", 2, &[Told::Nothing, Told::More]),
    ("ask_bin", 3, &[Told::Nothing, Told::More]),
];

/// Every turn of the patrol's rule, and every joining that can swallow the place.
const TURNS: [&str; 31] = [
    "a run of no chunks",
    "4 for the region's length",
    "4 for the heap bytes",
    "4 for a place that is no multiple of 8",
    "4 for a place above the end chunk",
    "a run begins at the end chunk",
    "a run comes to the end chunk",
    "a run ends before the end chunk",
    "a link is believed",
    "a link is believed over a place that does not name the same",
    "a link leaves the heap",
    "a link is no multiple of 8",
    "a link goes up by less than 24",
    "the start's link goes up by less than 8",
    "a link skips a chunk",
    "the walk finds the next chunk",
    "the walk meets a link that leaves the heap",
    "the walk meets a link that does not go down",
    "the walk meets a link down by less than 24",
    "the walk comes to the broken chunk from too near",
    "the walk passes below the broken chunk",
    "12 after something to mend",
    "a backward link is mended",
    "a backward link is mended beside spare flags",
    "the start's backward link is mended",
    "the start's flags say free",
    "a free size is mended",
    "a chunk in use has another word in that place",
    "free swallows the place",
    "a tail swallows the place",
    "the old block of a move swallows the place",
];

fn reaches_every_number(tally: &mut Tally) {
    for (name, numbers) in NUMBERS {
        for &number in numbers {
            let times = tally.answers.remove(&(name, number)).unwrap_or(0);
            assert!(times > 50, "{name} answered {number} only {times} times");
        }
    }
    assert!(tally.answers.is_empty(), "no call may give these: {:?}", tally.answers);
}

fn reaches_all_that_is_told(tally: &mut Tally) {
    println!("{:#?}", tally.told);
    for (name, question, kinds) in TOLD {
        for &kind in kinds {
            let times = tally.told.remove(&(name, question, kind)).unwrap_or(0);
            assert!(times > 50, "{name}, question {question}: {kind:?} only {times} times");
        }
    }
    assert!(tally.told.is_empty(), "no question may tell these: {:?}", tally.told);
}

fn reaches_both_ways(tally: &mut Tally) {
    for way in (0..=5).map(Way::Halving).chain([Way::Division]) {
        let times = tally.ways.remove(&way).unwrap_or(0);
        assert!(times > 50, "{way:?}: only {times} times");
    }
    assert!(tally.ways.is_empty(), "a table is halved five times at most: {:?}", tally.ways);
}

fn reaches_every_source(tally: &mut Tally) {
    println!("{:#?}", tally.sources);
    for name in ["allocate", "allocate_cleared", "reallocate"] {
        for sort in [Need::Small, Need::Large, Need::LargeOfNoSmall] {
            for source in SOURCES {
                let times = tally.sources.remove(&(name, sort, source)).unwrap_or(0);
                assert!(times > 30, "{name}, {sort:?}, {source:?}: only {times} times");
            }
        }
    }
}

fn reaches_the_smallest_of_several(tally: &mut Tally) {
    println!("{:#?}", tally.fits);
    for name in ["allocate", "allocate_cleared", "reallocate"] {
        for source in [Source::OwnBin, Source::LargerBin] {
            for fit in [Fit::OneSize, Fit::Smallest] {
                let times = tally.fits.remove(&(name, source, fit)).unwrap_or(0);
                assert!(times > 50, "{name}, {source:?}, {fit:?}: only {times} times");
            }
        }
    }
    assert!(tally.fits.is_empty(), "a smaller chunk could serve: {:?}", tally.fits);
}

fn reaches_every_spot(tally: &mut Tally) {
    println!("{:#?}", tally.puts);
    for origin in ORIGINS {
        for spot in SPOTS {
            let times = tally.puts.remove(&(origin, spot)).unwrap_or(0);
            assert!(times > 50, "{origin:?}, {spot:?}: only {times} times");
        }
    }
}

fn reaches_unordered_heaps(tally: &mut Tally) {
    println!("{:#?}, equals exchanged {} times", tally.unordered, tally.equals_exchanged);
    let asks_no_check = |name: &str| matches!(name, "setup" | "patrol");
    for (name, _) in NUMBERS {
        let number = if asks_no_check(name) { 0 } else { Refusal::HeapFails.number() };
        let times = tally.unordered.remove(&(name, number)).unwrap_or(0);
        assert!(times > 50, "{name} on an unordered heap: {number} only {times} times");
    }
    tally.unordered.retain(|(name, number), _| !asks_no_check(name) || *number == Refusal::HeapFails.number());
    assert!(tally.unordered.is_empty(), "an unordered heap may not be answered so: {:?}", tally.unordered);
    assert!(tally.equals_exchanged > 50, "equals exchanged only {} times", tally.equals_exchanged);
}

fn reaches_every_turn(tally: &mut Tally) {
    println!("{:#?}", tally.turns);
    for turn in TURNS {
        let times = tally.turns.remove(turn).unwrap_or(0);
        assert!(times > 50, "{turn}: only {times} times");
    }
    assert!(tally.turns.is_empty(), "these turns are not listed: {:?}", tally.turns);
}

#[test]
fn the_cases_reach_every_answer() {
    let mut tally = Tally::new();
    for number in 0..3_000 {
        case::play(number, 1, &mut tally);
    }
    reaches_every_number(&mut tally);
    reaches_all_that_is_told(&mut tally);
    assert_eq!(tally.setups.len(), MOST_BINS, "m from 0 to 31: {:?}", tally.setups);
    reaches_both_ways(&mut tally);
    reaches_every_source(&mut tally);
    reaches_the_smallest_of_several(&mut tally);
    reaches_every_spot(&mut tally);
    reaches_unordered_heaps(&mut tally);
    assert!(tally.most_chunks > 1_500, "the longest chain has {} chunks", tally.most_chunks);
    reaches_every_turn(&mut tally);
}
