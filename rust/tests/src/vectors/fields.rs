//! The fields of what stands behind a row and of a report's parameters, as `name=number` with commas between.

use super::lines::hex;
use otap_reference::reference::message::Hash;
use otap_reference::reference::reports::items::Item;
use otap_reference::reference::settings::{
    EmergencyKey, GroupFlags, HomeNumbers, IndividualFlags, LineFlags, SystemCode,
};
use otap_reference::reference::values::Entry;

fn joined(fields: &[(&str, u32)]) -> String {
    let words: Vec<String> = fields.iter().map(|(name, value)| format!("{name}={value}")).collect();
    if words.is_empty() {
        "-".to_string()
    } else {
        words.join(",")
    }
}

pub fn entry(entry: Entry) -> String {
    let (address, id_type, call, group) = match entry {
        Entry::Group { address, flags } => (address.0, 0, of_group_call(flags), of_group(flags)),
        Entry::Individual { address, flags } => {
            (address.0, 0, of_individual(flags), of_group(GroupFlags::default()))
        }
        Entry::Line { flags } => {
            (0, u32::from(flags.pabx), of_line(flags), of_group(GroupFlags::default()))
        }
    };
    joined(&[&[("address", address), ("idType", id_type)][..], &call, &group].concat())
}

fn called(encryption: bool, emergency: bool, priority: u8) -> [(&'static str, u32); 3] {
    [
        ("encryption", encryption.into()),
        ("emergency", emergency.into()),
        ("priority", priority.into()),
    ]
}

fn of_group_call(flags: GroupFlags) -> [(&'static str, u32); 3] {
    called(flags.encryption, flags.emergency, flags.priority)
}

fn of_individual(flags: IndividualFlags) -> [(&'static str, u32); 3] {
    called(flags.encryption, flags.emergency, flags.priority)
}

fn of_line(flags: LineFlags) -> [(&'static str, u32); 3] {
    called(flags.encryption, flags.emergency, flags.priority)
}

fn of_group(flags: GroupFlags) -> [(&'static str, u32); 3] {
    [
        ("attribute", flags.attribute.into()),
        ("broadcast", flags.broadcast.into()),
        ("ovcm", flags.ovcm.into()),
    ]
}

pub fn key(key: EmergencyKey) -> String {
    let EmergencyKey { group, voice, status, siren, address } = key;
    let flags = [("voice", voice.into()), ("status", status.into()), ("siren", siren.into())];
    let target = [
        ("address", address.unwrap_or(0)),
        ("current", address.is_none().into()),
        ("group", group.into()),
    ];
    joined(&[target, flags].concat())
}

pub fn home(HomeNumbers { nzi, np }: HomeNumbers) -> String {
    joined(&[("nzi", nzi.into()), ("np", np.into())])
}

pub fn system(SystemCode { lai, la, roaming, par }: SystemCode) -> String {
    joined(&[
        ("lai", lai.into()),
        ("la", la.into()),
        ("roaming", roaming.into()),
        ("par", par.into()),
    ])
}

/// Type, whether it is unknown, fields, the text's units, digits and the hash with its code; `none` for what the type has not.
pub fn item(item: &Item) -> String {
    let none = || "none".to_string();
    let units =
        |text: &[u16]| hex(&text.iter().flat_map(|unit| unit.to_be_bytes()).collect::<Vec<u8>>());
    let unknown = u8::from(matches!(item, Item::Unknown(_)));
    let (text, digits, hash) = match item {
        Item::GroupContact { slot, .. } => (units(&slot.text), none(), none()),
        Item::IndividualContact { slot, .. } => (units(&slot.text), none(), none()),
        Item::LineContact { line, .. } => (units(&line.text), hex(&line.digits), none()),
        Item::QuickText(entry) | Item::StatusText { entry, .. } => {
            (units(&entry.text), none(), none())
        }
        Item::KeptHash(hash) => (none(), none(), hash_word(hash)),
        _ => (none(), none(), none()),
    };
    format!("{} {unknown} {} {text} {digits} {hash}", item.asked(), item_fields(item))
}

fn hash_word(hash: &Hash) -> String {
    format!("{}:{}", hash.code(), hex(hash.value()))
}

fn item_fields(item: &Item) -> String {
    let index = |index: &u8| ("index", u32::from(*index));
    match item {
        Item::GroupContact { index: at, slot } => {
            let flags = [of_group_call(slot.flags()), of_group(slot.flags())].concat();
            joined(&[&[index(at), ("address", slot.address.0)][..], &flags].concat())
        }
        Item::IndividualContact { index: at, slot } => joined(
            &[&[index(at), ("address", slot.address.0)][..], &of_individual(slot.flags())].concat(),
        ),
        Item::LineContact { index: at, line } => {
            let id_type = ("idType", u32::from(line.flags.pabx));
            joined(&[&[index(at), id_type][..], &of_line(line.flags)].concat())
        }
        Item::EmergencyKey(own) => key(*own),
        Item::QuickText(entry) => joined(&[index(&entry.key)]),
        Item::HomeNumbers(own) => home(*own),
        Item::Channel { index, channel } => {
            joined(&[("index", u32::from(*index)), ("channel", u32::from(*channel))])
        }
        Item::SystemCode(own) => system(*own),
        Item::StatusText { entry, .. } => joined(&[("code", u32::from(entry.key))]),
        Item::KeptHash(_) | Item::Unknown(_) => joined(&[]),
    }
}
