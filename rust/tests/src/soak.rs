//! Seeded messages by the million, through the archive and the reference: the answer, the reply, every byte of the store and the counts after each of them,
//! rows, exports, callers, values and reports of a sample, and all of these every 1,000 messages. The first difference ends it, and is shrunk.

mod archive;
pub mod options;
pub mod question;
pub mod questions;
mod reference;
mod shorter;
pub mod shrink;
pub mod sides;
pub mod tally;
pub mod wrong;

use crate::sets::Tried;
use options::{Options, Which};
use otap::{Handheld, Vehicle};
use otap_reference::inputs::calls::room;
use otap_reference::inputs::draft::carried;
use otap_reference::inputs::random::Random;
use otap_reference::inputs::{self, reports, requests};
use otap_reference::reference::commit::REPLY_ROOM;
use otap_reference::reference::tables::Set;
use question::Question;
use shrink::{shrink, Asking, Shrunk};
use sides::{Compared, Sides};
use tally::Tally;
use wrong::Wrong;

/// Everything is asked as often.
const ALL_EVERY: u64 = 1_000;

/// From a fresh store on, since a start is what a sequence can be repeated from.
const RUNS: [usize; 4] = [30, 100, 300, 1_000];

/// The first messages of a run that starts with full tables and a full area.
const FILLING: usize = 16;

/// A difference, and the kind of set that shows it.
#[derive(Clone, Debug)]
pub struct Found {
    pub set: &'static str,
    pub shrunk: Shrunk,
}

/// One kind of set, sent messages.
struct Soaked<K> {
    random: Random,
    sides: Sides<K>,
    wrong: Option<Wrong>,
    /// Since the last start.
    sent: Vec<Vec<u8>>,
    tally: Tally,
}

/// Either kind.
trait Soaking {
    /// Sends a run of at most so many messages to a fresh store.
    fn run(&mut self, most: u64) -> Result<u64, Box<Found>>;

    fn tally(&self) -> &Tally;
}

impl<K: Tried> Soaked<K> {
    fn new(seed: u64, wrong: Option<Wrong>) -> Self {
        let (random, sides) = (Random::new(seed), Sides::fresh(wrong));
        Soaked { random, sides, wrong, sent: Vec::new(), tally: Tally::default() }
    }

    fn run_compared(&mut self, most: u64) -> Compared<u64> {
        let length = self.random.pick(&RUNS).min(most.try_into().unwrap_or(usize::MAX));
        let filling = self.random.pick(&[0, FILLING]);
        (self.sides, self.sent) = (Sides::fresh(self.wrong), Vec::new());
        for place in 0..length {
            let set = &self.sides.reference.set;
            let message = if place < filling {
                requests::filling(&mut self.random, set).bytes()
            } else {
                message(&mut self.random, set)
            };
            self.send(message)?;
        }
        Ok(length as u64)
    }

    /// Judges a sample first, commits, and asks what the seed has for it.
    fn send(&mut self, message: Vec<u8>) -> Compared<()> {
        self.sent.push(message.clone());
        if self.random.percent(25) {
            let room = room(&mut self.random, REPLY_ROOM);
            self.sides.ask(&Question::Judge { message: message.clone(), room })?;
            self.tally.judged += 1;
        }
        let given = self.sides.send(&message)?;
        self.tally.count(&message, given.number);
        let asked = questions::sampled(&mut self.random, &self.sides.reference.set);
        if let Some(question) = asked {
            self.sides.ask(&question)?;
            self.tally.asked += 1;
        }
        if self.tally.messages.is_multiple_of(ALL_EVERY) {
            self.tally.asked += self.sides.ask_all()? as u64;
            self.tally.all += 1;
        }
        Ok(())
    }
}

impl<K: Tried> Soaking for Soaked<K> {
    fn run(&mut self, most: u64) -> Result<u64, Box<Found>> {
        self.run_compared(most).map_err(|difference| {
            let sent = std::mem::take(&mut self.sent);
            let shrunk = shrink::<K>(sent, *difference, self.wrong);
            Box::new(Found { set: K::NAME, shrunk })
        })
    }

    fn tally(&self) -> &Tally {
        &self.tally
    }
}

/// Mostly what the suites send: good, damaged and misdirected ones that follow the set; and queries, reports and any bytes, which are no requests.
fn message(random: &mut Random, set: &Set) -> Vec<u8> {
    match random.below(50) {
        0 => reports::query(random, set.limits),
        1 => reports::report(random, set).message,
        2 => random.bytes_up_to(100),
        3 => {
            let (coding, data) = (random.bits(8) as u8, random.bytes_up_to(100));
            carried(coding, &data, random.flag())
        }
        _ => inputs::message(random, set),
    }
}

/// Sends as many messages as are asked for, a run to each set in turn; `told` hears after each run how many were sent.
pub fn soak(options: &Options, told: &mut dyn FnMut(u64)) -> Result<Tally, Box<Found>> {
    let Options { seed, wrong, .. } = *options;
    let handheld = || Box::new(Soaked::<Handheld>::new(seed, wrong)) as Box<dyn Soaking>;
    let vehicle = || Box::new(Soaked::<Vehicle>::new(!seed, wrong)) as Box<dyn Soaking>;
    let mut sets = match options.set {
        Which::Handheld => vec![handheld()],
        Which::Vehicle => vec![vehicle()],
        Which::Both => vec![handheld(), vehicle()],
    };
    let (mut sent, mut turn) = (0, 0);
    while sent < options.messages {
        let many = sets.len();
        sent += sets[turn % many].run(options.messages - sent)?;
        turn += 1;
        told(sent);
    }
    Ok(sets.iter().map(|set| set.tally().clone()).fold(Tally::default(), Tally::plus))
}

/// Sends these messages, each judged first, and asks everything behind the last; says at which of them, from 0, the two part.
pub fn replay(messages: &[Vec<u8>], options: &Options) -> Result<(), (usize, Box<Found>)> {
    let asking = Asking { judged: true, question: None, all: true };
    let both = options.set == Which::Both;
    if both || options.set == Which::Handheld {
        replay_to::<Handheld>(messages, &asking, options)?;
    }
    if both || options.set == Which::Vehicle {
        replay_to::<Vehicle>(messages, &asking, options)?;
    }
    Ok(())
}

fn replay_to<K: Tried>(
    messages: &[Vec<u8>],
    asking: &Asking,
    options: &Options,
) -> Result<(), (usize, Box<Found>)> {
    shrink::replay::<K>(messages, asking, options.wrong).map_err(|(place, difference)| {
        let messages = messages[..=place].to_vec();
        let shrunk = Shrunk { messages, difference: *difference };
        (place, Box::new(Found { set: K::NAME, shrunk }))
    })
}
