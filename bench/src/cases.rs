//! What is measured: cases of two scripts, which differ in the measured calls alone.
//!
//! The second script of a case has operation 0 in their place, with the same data, so that the difference of the two is
//! what the measured calls take, without the play and without the calls that only lead up to them.

use crate::outcome::{OUTCOME, Outcome};
use crate::random::Random;
use crate::script::{Call, Calls, Operation};
use crate::scripts::{Script, Source, blank_image};
use crate::side::{PLAIN, PROVED};

/// So many measured calls a script has.
const MEASURED: usize = 20;
/// So many times a script is played on one hub where the lists are full, and more often where they are shorter.
const TIMES: u32 = 20;
/// So many answers the script of answers has where the lists are full. It is played once on each hub.
const ANSWERS: u16 = 100;
const MAX_ACTORS: usize = 64;
const SENT: u8 = 1;
const SWITCHES: usize = 32;
/// An image of so many pages knows four actors for each.
const PAGES: usize = 16;
const ACTORS_PER_PAGE: usize = 4;
/// The numbers that are drawn for the cases are the same in each run.
const SEED: u64 = 1;
/// The actors of a table with gaps are about so far from one another.
const GAP: usize = 250;

/// Cases on hubs that are alike.
pub struct Group {
    pub heading: &'static str,
    pub cases: Vec<Case>,
}

/// Two scripts to be measured.
pub struct Case {
    pub name: String,
    /// With the measured calls.
    pub full: Script,
    /// With operation 0 in their place.
    pub base: Script,
    /// How many calls of the script are measured.
    measured: u32,
    /// How many times the scripts are played, unless something else is said.
    times: u32,
    /// What every measured call must tell: x and y.
    expected: Option<[u16; 2]>,
}

/// A store, and the list of each switch.
#[derive(Clone)]
struct Setup {
    source: Source,
    lists: Vec<Vec<u16>>,
}

impl Setup {
    /// So many actors numbered from 1 on, of which the first are listed in rising order.
    fn in_a_row(known: u16, listed: u16) -> Self {
        let source = Source::Table((1..=known).collect());
        Self { source, lists: vec![(1..=listed).collect(); SWITCHES] }
    }

    /// So many actors numbered with gaps. Some of them are listed, by each switch in an order of its own.
    fn with_gaps(known: usize, listed: usize) -> Self {
        let mut random = Random::new(SEED);
        let mut actors: Vec<u16> = (0..known).map(|place| (GAP * place + random.between(1, GAP)) as u16).collect();
        random.shuffle(&mut actors);
        Self { lists: orders(&mut random, &actors[..listed]), source: Source::Table(actors) }
    }

    /// An image of so many pages. Some of its actors are listed, by each switch in an order of its own.
    fn image(pages: usize, listed: usize) -> Self {
        let mut random = Random::new(SEED);
        let mut actors: Vec<u16> = (1..=(ACTORS_PER_PAGE * pages) as u16).collect();
        random.shuffle(&mut actors);
        Self { lists: orders(&mut random, &actors[..listed]), source: Source::Image(blank_image(pages)) }
    }

    /// The same store, and one switch alone.
    fn one_switch(&self) -> Self {
        Self { source: self.source.clone(), lists: vec![self.lists[0].clone()] }
    }

    /// How many times as often a call is made as with full lists, so that what is measured is not lost beside the rest.
    fn more_often(&self, most: usize) -> u16 {
        (MAX_ACTORS / self.listed().len()).min(most) as u16
    }

    /// How many times a script is played on one hub.
    fn times(&self) -> u32 {
        TIMES * u32::from(self.more_often(16))
    }

    /// The actors of the list of the first switch.
    fn listed(&self) -> &[u16] {
        &self.lists[0]
    }

    /// The listed actors in an order that is nobody's list, if they are in no order.
    fn in_turn(&self) -> &[u16] {
        &self.lists[self.lists.len() - 1]
    }
}

/// A list of these actors for each switch, each in another order.
fn orders(random: &mut Random, actors: &[u16]) -> Vec<Vec<u16>> {
    let mut lists = vec![actors.to_vec(); SWITCHES];
    for list in &mut lists {
        random.shuffle(list);
    }
    lists
}

impl Case {
    fn new(name: impl Into<String>, setup: &Setup) -> Self {
        let script =
            Script { version: 0x0201, source: setup.source.clone(), calls: Vec::new(), times: 1, room: OUTCOME };
        let mut case = Self {
            name: name.into(),
            full: script.clone(),
            base: script,
            measured: 0,
            times: setup.times(),
            expected: None,
        };
        for (switch, list) in (1..).zip(&setup.lists) {
            let list: Vec<u8> = list.iter().flat_map(|actor| actor.to_le_bytes()).collect();
            case.unmeasured(Call::new(Operation::Enrol).a(switch).data(&list));
        }
        case
    }

    fn unmeasured(&mut self, call: Call) {
        add(&mut self.full, call);
        add(&mut self.base, call);
    }

    fn measured(&mut self, call: Call) {
        add(&mut self.full, call);
        add(&mut self.base, Call { operation: Operation::Nothing as u8, ..call });
        self.measured += 1;
    }

    /// Measures one call again and again.
    fn repeating(self, call: Call) -> Self {
        self.taking_turns(&[call])
    }

    /// Measures these calls in turn.
    fn taking_turns(mut self, calls: &[Call]) -> Self {
        for call in calls.iter().cycle().take(MEASURED) {
            self.measured(*call);
        }
        let times = self.times;
        self.times(times)
    }

    fn times(mut self, times: u32) -> Self {
        self.full.times = times;
        self.base.times = times;
        self
    }

    /// How many measured calls one play makes.
    pub fn measured_in_a_play(&self) -> u32 {
        self.measured * self.full.times
    }

    fn expecting(self, x: u16, y: u16) -> Self {
        Self { expected: Some([x, y]), ..self }
    }

    /// Sees that the measured calls are what they are to be, on each side.
    pub fn check(&self) {
        let Some(expected) = self.expected else {
            return;
        };
        for side in [PLAIN, PROVED] {
            let mut out = vec![0; self.full.room];
            let used = side.play(&self.full, &mut out);
            assert_eq!(used, out.len(), "{}, {}: the whole script is played", self.name, side.name);
            let as_expected = self.measured_outcomes(&out).filter(|outcome| {
                let [x, y, _] = outcome.told();
                outcome.is_done() && [x, y] == expected
            });
            assert_eq!(as_expected.count(), self.measured as usize, "{}, {}", self.name, side.name);
        }
    }

    fn measured_outcomes(&self, out: &[u8]) -> impl Iterator<Item = Outcome> {
        let mut at = OUTCOME;
        Calls::of(&self.full.calls).zip(Calls::of(&self.base.calls)).filter_map(move |(call, base)| {
            let outcome = out[at..].first_chunk().map(Outcome::read);
            at += OUTCOME + call.buffer_length();
            if call.operation == base.operation { None } else { outcome }
        })
    }
}

fn add(script: &mut Script, call: Call) {
    call.write(&mut script.calls);
    script.room += OUTCOME + call.buffer_length();
}

// The cases.

/// What the play itself takes of a call: operation 0 without data, beside no call at all.
pub fn play_of_a_call() -> Case {
    let setup = Setup::in_a_row(256, 64).one_switch();
    let mut case = Case::new("the play of one call (operation 0)", &setup).repeating(Call::new(Operation::Nothing));
    case.base = Script { times: case.full.times, ..Case::new("", &setup).full };
    case
}

pub fn groups() -> Vec<Group> {
    let in_a_row = Setup::in_a_row(256, 64);
    let mut row = each_call(&in_a_row);
    row.extend(one_actor(&in_a_row));
    row.extend(refused_at_once(&in_a_row));
    vec![
        Group { heading: "a table of 256 actors numbered from 1, 64 listed in rising order", cases: row },
        group("a table of 256 actors with gaps, 64 listed in no order", &Setup::with_gaps(256, 64)),
        group("a table of 256 actors with gaps, 16 listed in no order", &Setup::with_gaps(256, 16)),
        group("a table of 256 actors with gaps, 1 listed", &Setup::with_gaps(256, 1)),
        group("a table of 4 actors with gaps, all listed in no order", &Setup::with_gaps(4, 4)),
        group("a table of 1 actor", &Setup::with_gaps(1, 1)),
        group("an image of 16 pages, 64 actors listed in no order", &Setup::image(PAGES, 64)),
        group("an image of 1 page, 4 actors listed in no order", &Setup::image(1, 4)),
    ]
}

fn group(heading: &'static str, setup: &Setup) -> Group {
    Group { heading, cases: each_call(setup) }
}

/// The calls whose time grows with the lists, the store and the row of switches: each for all listed actors.
fn each_call(setup: &Setup) -> Vec<Case> {
    let alone = setup.one_switch();
    let listed = setup.listed().len() as u16;
    let event = event(setup.in_turn());
    let at_all = Case::new("take an event of all listed actors, 32 switches", setup).repeating(take(&event));
    let targets: Vec<Call> = setup.in_turn().iter().map(|&actor| set_target(actor)).collect();
    vec![
        Case::new("take an event of all listed actors, 1 switch", &alone).repeating(take(&event)).expecting(0, listed),
        at_all.times(setup.times() / TIMES).expecting(0, listed),
        answers("take the awaited answer to a full refresh", &alone).expecting(1, 2 * listed + 1),
        Case::new("compose a full refresh, sent", &alone)
            .repeating(compose(1, full_refresh(listed)))
            .expecting(full_refresh(listed), listed),
        Case::new("set_target, the listed actors in turn, 32 switches", setup).taking_turns(&targets).expecting(0, 0),
    ]
}

/// The calls for one actor of lists in rising order, by its place.
fn one_actor(setup: &Setup) -> Vec<Case> {
    let list = setup.listed();
    let (first, middle, last) = (list[0], list[list.len() / 2 - 1], list[list.len() - 1]);
    let at = |place, actor| {
        let name = format!("set_target, {place} of {} actors, 32 switches", list.len());
        Case::new(name, setup).repeating(set_target(actor)).expecting(0, 0)
    };
    let event = event(&[middle]);
    vec![
        Case::new("take an event of one actor, 1 switch", &setup.one_switch()).repeating(take(&event)).expecting(0, 1),
        Case::new("take an event of one actor, 32 switches", setup).repeating(take(&event)).expecting(0, 1),
        at("first", first),
        at("middle", middle),
        at("last", last),
    ]
}

/// The calls that end at once: for a switch that is not enrolled, and an actor that the store does not know.
fn refused_at_once(setup: &Setup) -> Vec<Case> {
    let alone = setup.one_switch();
    let listed = setup.listed().len() as u16;
    vec![
        Case::new("compose refused at once, same buffer", &alone).repeating(compose(2, full_refresh(listed))),
        Case::new("set_target refused, no such actor", &alone).repeating(set_target(u16::MAX)),
    ]
}

fn set_target(actor: u16) -> Call<'static> {
    Call::new(Operation::SetTarget).a(actor).b(1)
}

fn take(payload: &[u8]) -> Call<'_> {
    Call::new(Operation::Take).data(payload)
}

/// A compose into a buffer of so many bytes.
fn compose(switch: u16, room: u16) -> Call<'static> {
    Call::new(Operation::Compose).a(switch).b(room).fate(SENT)
}

/// How many bytes a packet has that tells a switch everything: RealValue and EditValue of each actor, and Control.
fn full_refresh(actors: u16) -> u16 {
    16 + 12 * actors + 8
}

/// A switch asks for everything, is told everything, and answers: only the taking of the answer is measured. The
/// script is played on a fresh hub each time, so that the numbers of its answers are those of the packets.
fn answers(name: &'static str, setup: &Setup) -> Case {
    let mut case = Case::new(name, setup);
    let list = setup.listed();
    for number in 1..=ANSWERS * setup.more_often(10) {
        case.unmeasured(take(&init_request()));
        case.unmeasured(compose(1, full_refresh(list.len() as u16)));
        case.measured(take(&answer(number, list)));
    }
    case
}

/// An event of switch 1 with an EditValue of each of these actors.
fn event(actors: &[u16]) -> Vec<u8> {
    payload(0, actors.iter().flat_map(|&actor| value_message(0x42, actor)).collect())
}

fn init_request() -> Vec<u8> {
    payload(0, vec![8, 0x01, 0, 0, 0x40, 0, 0, 0])
}

/// The answer of switch 1 to a full refresh.
fn answer(number: u16, actors: &[u16]) -> Vec<u8> {
    let values = actors.iter().flat_map(|&actor| [value_message(0x43, actor), value_message(0x42, actor)]);
    let control = [8, 0x21, 0, 0, 0x30, 0x01, 0, 0];
    payload(number, values.flatten().chain(control).collect())
}

fn value_message(id: u8, actor: u16) -> [u8; 6] {
    let [low, high] = actor.to_le_bytes();
    [6, id, low, high, 0, 0]
}

fn payload(number: u16, messages: Vec<u8>) -> Vec<u8> {
    let length = 16 + messages.len() as u16;
    let words = [0x8601, length, 0x0201, number, 0x1234, 0, 1, 0];
    words.into_iter().flat_map(u16::to_le_bytes).chain(messages).collect()
}
