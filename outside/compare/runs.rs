//! Runs of edits and conversions: after each call the answers and every byte of the two buffers, and of a guard behind
//! them, must be the same.
use crate::baseline::convert::convert;
use crate::baseline::deck::{write, Rule, Version, MOST_BYTES};
use crate::baseline::edit::{edit, start, Edit};
use crate::baseline::element::{Data, Element};
use crate::baseline::kind::{row, Kind, WORD_LISTS};
use crate::baseline::random::{self, Random};
use crate::baseline::tables::{name, part};
use crate::baseline::text::{Form, Text};
use crate::baseline::{coded, DESK, STUDIO};
use crate::lesser::lesser_decks;
use crate::share::{hex, pieces, said, Answers};
use crate::{door, Outcome, Plan};

const GUARD: usize = 64;

static ANSWERS: Answers = Answers::new();

#[derive(Clone, Debug)]
enum Step {
    Start,
    Edit(Edit),
    Convert(Version), // of the deck, copied out, into its buffer
}

/// A call; no length means the true one.
#[derive(Clone, Debug)]
struct Call {
    edition: u64,
    length: Option<u64>,
    step: Step,
}

#[derive(Clone)]
struct Run {
    capacity: usize,
    first: Vec<u8>,
    calls: Vec<Call>,
}

/// The two buffers, each with its guard, and the true length of the deck.
struct State {
    archive: Vec<u8>,
    baseline: Vec<u8>,
    capacity: usize,
    length: usize,
}

impl State {
    fn new(capacity: usize, first: &[u8]) -> State {
        let mut buffer: Vec<u8> = (0..capacity + GUARD).map(|i| (i * 167 + 13) as u8).collect();
        let length = first.len().min(capacity);
        buffer[..length].copy_from_slice(&first[..length]);
        State { archive: buffer.clone(), baseline: buffer, capacity, length }
    }

    fn deck(&self) -> &[u8] {
        &self.baseline[..self.length]
    }

    /// Number of rules of a sound deck.
    fn rules(&self) -> usize {
        match self.deck() {
            [_, _, _, _, _, low, high, ..] => usize::from(*low) + 256 * usize::from(*high),
            _ => 0,
        }
    }

    /// What a rule more takes in the index.
    fn offset(&self) -> usize {
        4 * usize::from(self.deck().get(3) == Some(&2))
    }

    fn call(&mut self, call: &Call) -> Option<String> {
        let length = call.length.unwrap_or(self.length as u64);
        let deck = self.baseline[..length.min(self.capacity as u64) as usize].to_vec();
        let (a, b) = (&mut self.archive[..self.capacity], &mut self.baseline[..self.capacity]);
        let (archive, baseline) = match &call.step {
            Step::Start => (door::start(a), coded(start(b))),
            Step::Edit(what) => (door::edit(call.edition, a, length, what), coded(edit(call.edition, b, length, what))),
            Step::Convert(to) => {
                (door::convert(*to, call.edition, &deck, a), coded(convert(*to, call.edition, &deck, b)))
            }
        };
        if archive != baseline {
            return Some(said("answer", archive, baseline));
        }
        if self.archive != self.baseline {
            let at = (0..self.archive.len()).find(|&i| self.archive[i] != self.baseline[i]).unwrap_or(0);
            let (got, wanted) = (self.archive[at], self.baseline[at]);
            return Some(format!("buffer, byte {at}: the archive leaves {got:02X}, document 01 {wanted:02X}"));
        }
        ANSWERS.count(baseline);
        if baseline % 256 == 0 {
            self.length = (baseline / 256) as usize;
        }
        None
    }
}

/// Where a run first differs: the number of the call, the deck before it, and how.
fn play(run: &Run) -> Option<(usize, Vec<u8>, String)> {
    let mut state = State::new(run.capacity, &run.first);
    for (i, call) in run.calls.iter().enumerate() {
        let before = state.deck().to_vec();
        if let Some(difference) = state.call(call) {
            return Some((i, before, difference));
        }
    }
    None
}

fn fails(run: &Run) -> bool {
    play(run).is_some()
}

fn shorter(bytes: &[u8]) -> Vec<Vec<u8>> {
    let n = bytes.len();
    [0, n / 2, n.max(2) - 2, n.max(1) - 1].iter().filter(|&&m| m < n).map(|&m| bytes[..m].to_vec()).collect()
}

/// Calls with a shorter second deck, name, word or data.
fn lesser_calls(call: &Call) -> Vec<Call> {
    let steps: Vec<Edit> = match &call.step {
        Step::Edit(Edit::Insert { k, second, j }) => {
            let lesser = lesser_decks(second).into_iter();
            let numbers = [*j, j.saturating_sub(1)];
            lesser.flat_map(|second| numbers.map(|j| Edit::Insert { k: *k, second: second.clone(), j })).collect()
        }
        Step::Edit(Edit::Rename { k, name }) => {
            shorter(name).into_iter().map(|name| Edit::Rename { k: *k, name }).collect()
        }
        Step::Edit(Edit::AddWord { word }) => shorter(word).into_iter().map(|word| Edit::AddWord { word }).collect(),
        Step::Edit(Edit::AddRule { name, fixed, identifier, data }) => shorter(name)
            .into_iter()
            .map(|name| Edit::AddRule { name, fixed: *fixed, identifier: *identifier, data: data.clone() })
            .collect(),
        _ => Vec::new(),
    };
    steps.into_iter().map(|step| Call { step: Step::Edit(step), ..call.clone() }).collect()
}

/// Runs that are a step smaller than this one.
fn lesser_runs(run: &Run) -> Vec<Run> {
    let mut runs = Vec::new();
    for i in 0..run.calls.len() {
        let mut fewer = run.clone();
        fewer.calls.remove(i);
        runs.push(fewer);
    }
    runs.extend(lesser_decks(&run.first).into_iter().map(|first| Run { first, ..run.clone() }));
    for (i, call) in run.calls.iter().enumerate() {
        for lesser in lesser_calls(call) {
            let mut calls = run.calls.clone();
            calls[i] = lesser;
            runs.push(Run { calls, ..run.clone() });
        }
    }
    let needed = run.first.len() + 1000;
    if run.capacity > needed {
        runs.push(Run { capacity: needed, ..run.clone() });
    }
    runs
}

/// The smallest run found: the failing call alone on the deck before it, if that fails too; then step by step.
fn smallest(run: &Run) -> Run {
    let mut best = run.clone();
    if let Some((i, before, _)) = play(&best) {
        best.calls.truncate(i + 1);
        let alone = Run { capacity: best.capacity, first: before, calls: vec![best.calls[i].clone()] };
        if fails(&alone) {
            best = alone;
        }
    }
    let mut tries = 0;
    while let Some(lesser) = lesser_runs(&best).into_iter().find(|run| {
        tries += 1;
        tries < 20_000 && fails(run)
    }) {
        best = lesser;
    }
    best
}

fn report(run: &Run) -> String {
    let run = smallest(run);
    let (i, _, difference) = play(&run).unwrap_or_default();
    let mut text = format!(
        "numbers of calls in hexadecimal; buffer of {} bytes, deck of {} bytes {}\n",
        run.capacity,
        run.first.len(),
        hex(&run.first)
    );
    for call in &run.calls {
        text += &format!("{call:x?}\n");
    }
    text + &format!("call {i}: {difference}")
}

/// What a run is about.
#[derive(Clone, Copy, PartialEq)]
enum Theme {
    Small,
    Tight,
    Long,
    ManyRules,
    ManyElements,
    ManyWords,
    Big,
}

fn theme(r: &mut Random) -> Theme {
    match r.below(1000) {
        0..=9 => Theme::Big,
        10..=13 => Theme::Long,
        14..=29 => Theme::ManyRules,
        30..=89 => Theme::ManyElements,
        90..=149 => Theme::ManyWords,
        150..=349 => Theme::Tight,
        _ => Theme::Small,
    }
}

fn simple_element() -> Element {
    Element { identifier: 0x12D, data: Data::Simple }
}

/// A list of so many empty words, in both forms.
fn list_of(r: &mut Random, n: usize) -> Element {
    let form = |_| r.pick(&[Form::Short, Form::Long]);
    let words = (0..n).map(form).map(|form| Text { form, units: Vec::new() }).collect();
    Element { identifier: 0x211, data: Data::Words(words) }
}

/// The deck that a run begins with.
fn first_deck(r: &mut Random, theme: Theme, edition: u64) -> Vec<u8> {
    let version = random::version(r);
    let mut rules = match theme {
        Theme::Big => random::rules_of_size(version, 59_400 + r.below(601)),
        Theme::ManyRules => (0..253 + r.below(4)).map(|_| random::small_rule(0xC8, Vec::new())).collect(),
        _ => random::rules(r, edition),
    };
    if theme == Theme::ManyElements {
        let n = 61 + r.below(4);
        rules.push(Rule { elements: vec![simple_element(); n], ..random::small_rule(0x12D, vec![7]) });
    }
    if edition == STUDIO && (theme == Theme::ManyWords || theme == Theme::Big) {
        let n = if theme == Theme::Big { r.below(3) } else { 61 + r.below(4) };
        rules.push(Rule { elements: vec![list_of(r, n)], ..random::small_rule(0x12D, vec![]) });
    }
    while write(version, &rules).len() > MOST_BYTES {
        rules.remove(0);
    }
    let mut bytes = write(version, &rules);
    if r.once_in(25) {
        random::damage(r, &mut bytes);
    }
    bytes
}

fn capacity(r: &mut Random, theme: Theme, first: usize) -> usize {
    match theme {
        Theme::Tight => (first + r.below(70)).saturating_sub(r.below(8)),
        Theme::Big if r.once_in(2) => MOST_BYTES - r.below(20),
        Theme::Big => MOST_BYTES + r.below(3000),
        Theme::Small | Theme::Long => first + 200 + r.below(3000),
        _ => first + r.below(3000),
    }
}

/// Bytes of units with which a deck that grows by `more` beside them reaches 60,000 or the buffer's end, about.
fn to_limit(r: &mut Random, state: &State, more: usize) -> usize {
    let limit = if state.capacity < MOST_BYTES || r.once_in(2) { state.capacity } else { MOST_BYTES };
    (limit + 4).saturating_sub(state.length + more + r.below(9)).min(600)
}

fn new_units(r: &mut Random, state: &State, theme: Theme, more: usize) -> Vec<u8> {
    let choice = if theme == Theme::Big && r.once_in(2) { 2 } else { r.below(24) };
    let n = match choice {
        0 => r.pick(&[508, 509, 510, 511, 512, 514, 765, 1020, 65_534]),
        1 => 2 * r.below(20) + 1,
        2..=4 => to_limit(r, state, more) & !1,
        5 => 2 * r.below(256),
        _ => 2 * r.below(6),
    };
    r.bytes(n)
}

/// The units that the name of rule k has: to be renamed by them changes its form, if anything.
fn own_name(state: &State, k: u64) -> Vec<u8> {
    part(state.deck(), name(STUDIO, state.deck(), k)).to_vec()
}

/// A number of a rule, mostly one that there is.
fn number(r: &mut Random, count: usize) -> u64 {
    match r.below(14) {
        0 => count as u64,
        1 => r.pick(&[count as u64 + 1, 256, 257, 1 << 32, 1 << 63, u64::MAX]),
        2 => 0,
        _ => r.below(count.max(1)) as u64,
    }
}

fn second_deck(r: &mut Random, state: &State, edition: u64) -> Vec<u8> {
    match r.below(16) {
        0 => state.deck().to_vec(),
        1 => {
            let version = random::version(r);
            write(version, &random::rules_of_size(version, r.pick(&[59_999, 60_000, 60_001])))
        }
        _ => random::deck(r, edition),
    }
}

fn given_element(r: &mut Random, edition: u64) -> (u32, Vec<u8>) {
    let listed = edition == STUDIO && r.once_in(3);
    let identifier = if listed { r.pick(&WORD_LISTS) } else { random::identifier(r, edition) };
    let kind = if r.once_in(20) { None } else { row(identifier) };
    (identifier, random::given_data(r, kind.unwrap_or(Kind::SimpleAction)))
}

fn add_rule(r: &mut Random, state: &State, edition: u64, theme: Theme) -> Edit {
    let (identifier, data) = given_element(r, edition);
    let name = new_units(r, state, theme, 37 + data.len() + state.offset());
    Edit::AddRule { name, fixed: random::fixed(r), identifier, data }
}

fn add_element(r: &mut Random, edition: u64) -> Edit {
    let (identifier, data) = given_element(r, edition);
    Edit::AddElement { identifier, data }
}

fn random_edit(r: &mut Random, state: &State, edition: u64, theme: Theme) -> Edit {
    let rules = state.rules();
    let k = number(r, rules);
    if rules == 0 && !r.once_in(6) {
        return add_rule(r, state, edition, theme);
    }
    match (if r.once_in(3) { 0 } else { 1 + r.below(20) }, theme) {
        (0, Theme::ManyElements) | (1..=4, _) => add_element(r, edition),
        (0, Theme::ManyRules) | (5..=7, _) => add_rule(r, state, edition, theme),
        (0, Theme::ManyWords | Theme::Big) | (8..=9, _) => Edit::AddWord { word: new_units(r, state, theme, 5) },
        (10..=12, _) => {
            let second = second_deck(r, state, edition);
            let k = if r.once_in(4) { rules as u64 } else { k };
            Edit::Insert { k, second, j: number(r, 2) }
        }
        (13..=15, _) | (0, Theme::Long) => Edit::Remove { k },
        (16..=17, _) => Edit::Switch { k, on: r.once_in(2) },
        _ if r.once_in(8) => Edit::Rename { k, name: own_name(state, k) },
        _ => Edit::Rename { k, name: new_units(r, state, theme, 0) },
    }
}

fn random_call(r: &mut Random, state: &State, edition: u64, theme: Theme) -> Call {
    let length = match r.below(50) {
        0 => Some(r.pick(&[0, 7, 60_000, 60_001, 1 << 32, 1 << 63, u64::MAX])),
        1 => Some(state.capacity as u64 + r.below(3) as u64),
        2 => Some((state.length as u64 + r.below(5) as u64).saturating_sub(2)),
        _ => None,
    };
    let edition = match r.below(50) {
        0 => r.pick(&[0, 3, 257, 258, (1 << 32) + 1, (1 << 32) + 2, u64::MAX]),
        1 => DESK + STUDIO - edition,
        _ => edition,
    };
    let own = if edition == DESK || edition == STUDIO { edition } else { DESK };
    let step = match r.below(400) {
        0 => Step::Start,
        1..=20 => Step::Convert(random::version(r)),
        _ => Step::Edit(random_edit(r, state, own, theme)),
    };
    Call { edition, length, step }
}

fn calls_of(r: &mut Random, theme: Theme) -> usize {
    match theme {
        Theme::Long => 400 + r.below(800),
        Theme::Big | Theme::ManyRules => 12,
        Theme::Tight => 1 + r.below(12),
        _ => 1 + r.below(60),
    }
}

/// A random run, played as it is made up.
fn random_run(r: &mut Random) -> Outcome {
    let theme = theme(r);
    let edition = if r.once_in(3) { DESK } else { STUDIO };
    let first = if r.once_in(6) { Vec::new() } else { first_deck(r, theme, edition) };
    let capacity = capacity(r, theme, first.len());
    let mut state = State::new(capacity, &first);
    let mut run = Run { capacity, first, calls: Vec::new() };
    if run.first.is_empty() {
        run.calls.push(Call { edition, length: None, step: Step::Start });
    }
    for i in 0..calls_of(r, theme) {
        if i >= run.calls.len() {
            run.calls.push(random_call(r, &state, edition, theme));
        }
        if state.call(&run.calls[i]).is_some() {
            return Err(report(&run));
        }
    }
    Ok(run.calls.len() as u64)
}

pub fn all(plan: &Plan) -> Outcome {
    const PIECES: usize = 200;
    let each = plan.edits / PIECES as u64;
    let cases = pieces(PIECES, |i| {
        let mut r = Random::new(plan.seed.wrapping_mul(7919).wrapping_add(i as u64));
        let mut cases = 0;
        while cases < each {
            cases += random_run(&mut r)?;
        }
        Ok(cases)
    })?;
    println!("compare: edits: how often each number was answered:{}", ANSWERS.counted());
    Ok(cases)
}
