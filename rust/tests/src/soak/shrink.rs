//! The shortest sequence that still shows a difference: fewer messages first, then shorter ones.

use super::question::Question;
use super::shorter;
use super::sides::{Compared, Difference, Sides};
use super::wrong::Wrong;
use crate::sets::Tried;
use std::marker::PhantomData;

/// More replays than this are not tried; what was reached by then is shown.
const MOST_TRIALS: usize = 4_000;

/// What was sent to a fresh store, and where the two sides part then.
#[derive(Clone, Debug)]
pub struct Shrunk {
    pub messages: Vec<Vec<u8>>,
    pub difference: Difference,
}

impl Shrunk {
    /// The messages, and behind them the query whose report differs, if it is that.
    pub fn records(&self) -> Vec<Vec<u8>> {
        let mut records = self.messages.clone();
        if let Question::Report { call, .. } = &self.difference.question {
            records.push(call.query.clone());
        }
        records
    }
}

/// What a replay asks beside the answers, the stores and the counts.
#[derive(Clone, Debug, Default)]
pub struct Asking {
    /// Each message is judged first.
    pub judged: bool,
    /// Behind the last message.
    pub question: Option<Question>,
    /// And everything there.
    pub all: bool,
}

/// Sends the messages to fresh sides; the difference comes with the place of the message behind which it stands.
pub fn replay<K: Tried>(
    messages: &[Vec<u8>],
    asking: &Asking,
    wrong: Option<Wrong>,
) -> Result<(), (usize, Box<Difference>)> {
    let mut sides = Sides::<K>::fresh(wrong);
    for (place, message) in messages.iter().enumerate() {
        let judged = if asking.judged { judge(&mut sides, message) } else { Ok(()) };
        let sent = judged.and_then(|()| sides.send(message));
        sent.map_err(|difference| (place, difference))?;
    }
    let last = |difference| (messages.len().saturating_sub(1), difference);
    asking.question.iter().try_for_each(|asked| sides.ask(asked).map(drop)).map_err(last)?;
    if asking.all {
        sides.ask_all().map_err(last)?;
        // A query among the messages is answered with its report, so that records can have one.
        messages.iter().try_for_each(|query| sides.ask_report(query).map(drop)).map_err(last)?;
    }
    Ok(())
}

fn judge<K: Tried>(sides: &mut Sides<K>, message: &[u8]) -> Compared<()> {
    sides.ask(&Question::judge(message)).map(drop)
}

/// Replays of ever less, and what the last that differed came to.
pub struct Trials<K> {
    wrong: Option<Wrong>,
    asking: Asking,
    left: usize,
    found: Difference,
    kind: PhantomData<K>,
}

impl<K: Tried> Trials<K> {
    /// Whether these messages still show a difference, at the last of them or in what is asked behind it.
    fn differs(&mut self, messages: &[Vec<u8>]) -> bool {
        if self.left == 0 || messages.is_empty() {
            return false;
        }
        self.left -= 1;
        let Err((_, difference)) = replay::<K>(messages, &self.asking, self.wrong) else {
            return false;
        };
        // What differs may stand elsewhere by now, as a row that moved up.
        if self.asking.question.is_some() {
            self.asking.question = Some(difference.question.clone());
        }
        self.found = *difference;
        true
    }

    /// Each message by itself made as short as it can be.
    fn shorten(&mut self, mut messages: Vec<Vec<u8>>) -> Vec<Vec<u8>> {
        // Everything is asked only while messages go: a shorter one mostly leaves what differs where it is.
        let all = std::mem::take(&mut self.asking.all);
        for place in 0..messages.len() {
            let mut tried = messages.clone();
            messages[place] = shorter::shortest(&messages[place], &mut |message| {
                tried[place] = message.to_vec();
                self.differs(&tried)
            });
        }
        self.asking.all = all;
        messages
    }
}

/// Shrinks a sequence whose last message, or a question behind it, showed the difference.
pub fn shrink<K: Tried>(
    messages: Vec<Vec<u8>>,
    difference: Difference,
    wrong: Option<Wrong>,
) -> Shrunk {
    let judged = matches!(difference.question, Question::Judge { .. });
    let apart = !judged && !difference.question.is_always_asked();
    let question = apart.then(|| difference.question.clone());
    let asking = Asking { judged, question, all: apart };
    let kind = PhantomData;
    let mut trials = Trials::<K> { wrong, asking, left: MOST_TRIALS, found: difference, kind };
    let (mut messages, mut before) = (messages, usize::MAX);
    while size(&messages) < before {
        before = size(&messages);
        messages = reduced(messages, &mut |fewer| trials.differs(fewer));
        messages = trials.shorten(messages);
    }
    // The last trial that differed was of these messages, or of the sequence as it came.
    trials.left = 1;
    trials.differs(&messages);
    Shrunk { messages, difference: trials.found }
}

fn size(messages: &[Vec<u8>]) -> usize {
    messages.iter().map(|message| message.len() + 1).sum()
}

/// The list without all that can go: halves first, then ever smaller pieces.
pub fn reduced<T: Clone>(mut list: Vec<T>, differs: &mut dyn FnMut(&[T]) -> bool) -> Vec<T> {
    let mut piece = list.len().div_ceil(2);
    while piece > 0 {
        list = without(list, piece, differs);
        piece /= 2;
    }
    list
}

/// The list without each piece of this size that can go.
fn without<T: Clone>(
    mut list: Vec<T>,
    piece: usize,
    differs: &mut dyn FnMut(&[T]) -> bool,
) -> Vec<T> {
    let mut at = 0;
    while at < list.len() {
        let end = list.len().min(at + piece);
        let fewer = [&list[..at], &list[end..]].concat();
        if differs(&fewer) {
            list = fewer;
        } else {
            at = end;
        }
    }
    list
}
