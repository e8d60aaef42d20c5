//! What is asked beside each message: now and then one thing, seldom everything.

use super::question::Question;
use otap_reference::inputs::callers::{self, Caller};
use otap_reference::inputs::calls::{part, room, row};
use otap_reference::inputs::maker::parameters::ASKED;
use otap_reference::inputs::random::Random;
use otap_reference::inputs::reports::{self, ReportCall};
use otap_reference::inputs::values::{self, Value};
use otap_reference::reference::export::PARTS;
use otap_reference::reference::queries::{query, types};
use otap_reference::reference::reports::messages;
use otap_reference::reference::screen::SCRATCH_ROOM;
use otap_reference::reference::settings::Line;
use otap_reference::reference::tables::Set;
use otap_reference::reference::values::DIGITS_ROOM;

/// One of these calls, of two messages of five.
pub fn sampled(random: &mut Random, set: &Set) -> Option<Question> {
    Some(match random.below(100) {
        0..=14 => {
            let (table, row) = row(random, set.limits);
            Question::Row { table, row, room: room(random, SCRATCH_ROOM) }
        }
        15..=20 => Question::Export { part: part(random), room: room(random, set.limits.message) },
        21..=28 => Question::Caller(callers::caller(random, &set.tables)),
        29..=38 => Question::Value(values::value(random, set)),
        39 => {
            let call = reports::call(random, set);
            Question::Report { call, room: room(random, set.limits.message) }
        }
        _ => return None,
    })
}

/// Every row, export, line, value and report, and such as are not there on either side.
pub fn all(set: &Set) -> Vec<Question> {
    [rows(set), exports(set), lines(set), entries(set), settings(set), reports_of(set)].concat()
}

fn rows(set: &Set) -> Vec<Question> {
    let most = [2, set.limits.lines as u32 + 2, 66, 130, 18, 18, 66, 66, 18, 2];
    let places = (0..).zip(most).flat_map(|(table, rows)| (0..rows).map(move |row| (table, row)));
    let asked = places.map(|(table, row)| Question::Row { table, row, room: SCRATCH_ROOM });
    asked.collect()
}

fn exports(set: &Set) -> Vec<Question> {
    let room = set.limits.message;
    (0..=u32::from(PARTS) + 1).map(|part| Question::Export { part, room }).collect()
}

/// Each line's own key, with the other IDtype, and with a digit fewer and one more.
fn lines(set: &Set) -> Vec<Question> {
    set.tables.lines.iter().flat_map(near).map(Question::Caller).collect()
}

fn near(line: &Line) -> [Caller; 4] {
    let (id_type, digits) = (u32::from(line.flags.pabx), line.digits.clone());
    let more = [&digits[..], &[0]].concat();
    let fewer = digits[..digits.len() - 1].to_vec();
    let other = Caller { id_type: 1 - id_type, digits: digits.clone() };
    let [own, longer, shorter] = [digits, more, fewer].map(|digits| Caller { id_type, digits });
    [own, other, longer, shorter]
}

fn entries(set: &Set) -> Vec<Question> {
    let most = [2, set.limits.lines as u32 + 2, 2, 2, 18, 18, 66, 66, 18, 2];
    let places = (0..).zip(most).flat_map(|(table, rows)| (0..rows).map(move |row| (table, row)));
    let both = |(table, index)| {
        let digits = Value::EntryDigits { table, index, room: DIGITS_ROOM };
        [Value::Entry { table, index }, digits].map(Question::Value)
    };
    places.flat_map(both).collect()
}

fn settings(set: &Set) -> Vec<Question> {
    let positions = 0..set.tables.channels.len() as u32 + 2;
    let channels = positions.map(|position| Value::Channel { position });
    let fixed = [Value::EmergencyKey, Value::HomeNumbers, Value::SystemCode];
    channels.chain(fixed).map(Question::Value).collect()
}

/// Each message of the reports to each type and to all of them, and the one behind the last.
fn reports_of(set: &Set) -> Vec<Question> {
    let each = ASKED.iter().map(std::slice::from_ref).chain([&ASKED[..]]);
    each.flat_map(|types| report_to(&query(types), set)).collect()
}

/// Each message of the report to a query and the one behind the last; nothing where it is none.
pub fn report_to(query: &[u8], set: &Set) -> Vec<Question> {
    let Ok(types) = types(query, set.limits) else { return Vec::new() };
    let total = messages(types, set).map_or(0, |messages| messages.len()) as u32;
    let calls = (1..=total + 1).map(|index| ReportCall { query: query.to_vec(), index });
    calls.map(|call| Question::Report { call, room: set.limits.message }).collect()
}
