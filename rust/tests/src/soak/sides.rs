//! The archive and the reference beside each other: each question is asked of both, and then all bytes of the store are compared.

use super::archive::Archive;
use super::question::{hex, Given, Question};
use super::questions;
use super::reference::Reference;
use super::wrong::Wrong;
use crate::sets::Tried;
use std::fmt;

pub struct Sides<K> {
    archive: Archive<K>,
    pub reference: Reference,
}

/// Where the two part.
#[derive(Clone, Debug, PartialEq, Eq)]
pub struct Difference {
    pub question: Question,
    pub archive: Given,
    pub reference: Given,
    /// The first byte of the store that differs, with both values.
    pub store: Option<(usize, u8, u8)>,
}

pub type Compared<T> = Result<T, Box<Difference>>;

impl<K: Tried> Sides<K> {
    pub fn fresh(wrong: Option<Wrong>) -> Self {
        Sides { archive: Archive::fresh(wrong), reference: Reference::fresh(K::LIMITS) }
    }

    /// The answer of both, and the same store on both sides; of a report its message is read, too.
    pub fn ask(&mut self, question: &Question) -> Compared<Given> {
        let archive = self.archive.ask(question);
        let reference = self.reference.ask(question);
        let same = self.archive.bytes == self.reference.bytes;
        if archive != reference || !same {
            let (question, store) = (question.clone(), self.first_byte());
            return Err(Box::new(Difference { question, archive, reference, store }));
        }
        match question {
            Question::Report { .. } if archive.number == 0 => {
                let message = archive.bytes[..archive.values[1] as usize].to_vec();
                self.ask(&Question::Read { message }).map(|_| archive).map_err(|read| {
                    // The report is what can be asked for again.
                    Box::new(Difference { question: question.clone(), ..*read })
                })
            }
            _ => Ok(archive),
        }
    }

    fn first_byte(&self) -> Option<(usize, u8, u8)> {
        let pairs = self.archive.bytes.iter().zip(&self.reference.bytes).enumerate();
        let mut differing = pairs.filter(|(_, (one, other))| one != other);
        differing.next().map(|(place, (one, other))| (place, *one, *other))
    }

    /// What is compared after each message: the answer, the reply, the store and the counts.
    pub fn send(&mut self, message: &[u8]) -> Compared<Given> {
        let given = self.ask(&Question::commit(message))?;
        self.ask(&Question::Counts)?;
        Ok(given)
    }

    /// All rows, exports, lines, values and reports; says how many questions these were.
    pub fn ask_all(&mut self) -> Compared<usize> {
        self.ask_each(&questions::all(&self.reference.set))
    }

    /// All messages of the report to a query, of any other message nothing.
    pub fn ask_report(&mut self, query: &[u8]) -> Compared<usize> {
        self.ask_each(&questions::report_to(query, &self.reference.set))
    }

    fn ask_each(&mut self, questions: &[Question]) -> Compared<usize> {
        questions.iter().try_for_each(|question| self.ask(question).map(drop))?;
        Ok(questions.len())
    }
}

impl fmt::Display for Difference {
    fn fmt(&self, to: &mut fmt::Formatter) -> fmt::Result {
        let Difference { question, archive, reference, store } = self;
        writeln!(to, "{question}")?;
        writeln!(to, "  archive    {archive}")?;
        writeln!(to, "  reference  {reference}")?;
        if let Some((at, [one, other])) = apart(archive.said.as_bytes(), reference.said.as_bytes())
        {
            let [one, other] = [one, other].map(String::from_utf8_lossy);
            writeln!(to, "  said from {at}: archive {one:?}, reference {other:?}")?;
        }
        if let Some((at, [one, other])) = apart(&archive.bytes, &reference.bytes) {
            writeln!(to, "  bytes from {at}: archive {}, reference {}", hex(one), hex(other))?;
        }
        if let Some((place, one, other)) = store {
            writeln!(to, "  byte {place} of the store: archive {one:02X}, reference {other:02X}")?;
        }
        Ok(())
    }
}

/// Where two begin to differ, if they do, and a few bytes from there on.
fn apart<'a>(one: &'a [u8], other: &'a [u8]) -> Option<(usize, [&'a [u8]; 2])> {
    let at = one.iter().zip(other).take_while(|(one, other)| one == other).count();
    let few = |bytes: &'a [u8]| &bytes[at..bytes.len().min(at + 32)];
    (one != other).then(|| (at, [few(one), few(other)]))
}
