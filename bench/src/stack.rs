//! How deep each call goes: it runs on a painted stack, which is then looked through.

use crate::cases;
use crate::conversions;
use crate::sides::{Call, Rattle, Side};
use otap::{Handheld, Kind, Set, Vehicle};
use otap_reference::inputs::Inputs;
use otap_reference::reference::limits::{Limits, HANDHELD, VEHICLE};
use std::arch::asm;
use std::collections::BTreeMap;
use std::hint::black_box;

const ROOM: usize = 256 * 1024;
const PAINT: u8 = 0xC3;

/// The most bytes that were seen of each call, by its name.
type Deepest = BTreeMap<String, usize>;

pub fn table() {
    let mut deepest = Deepest::new();
    for case in cases::all() {
        let mut rattle = cases::rattle(&case);
        let depth = depth(|| seen(rattle.call(&case.call)));
        note(&mut deepest, case.limits, call_name(&case.call), depth);
    }
    messages::<Handheld>(&mut deepest, HANDHELD);
    messages::<Vehicle>(&mut deepest, VEHICLE);
    note(&mut deepest, HANDHELD, "nothing", depth(|| ()));
    println!("Deepest stack of each call through the face, in bytes; `nothing` is what the measurement itself takes.");
    println!();
    println!("| call | bytes |");
    println!("|---|---|");
    deepest.iter().for_each(|(name, depth)| println!("| {name} | {depth} |"));
}

fn note(deepest: &mut Deepest, limits: Limits, name: &str, depth: usize) {
    let begin = if limits == VEHICLE { "vehicle-" } else { "" };
    let most = deepest.entry(format!("{begin}{name}")).or_insert(0);
    *most = depth.max(*most);
}

/// Messages of every kind, judged and committed, and the start of a store.
fn messages<K: Kind>(deepest: &mut Deepest, limits: Limits) {
    for seed in 0..20 {
        let mut inputs = Inputs::new(seed, limits);
        let mut rattle = Rattle::<K>::fresh();
        for _ in 0..100 {
            let message = inputs.message();
            for call in [Call::Judge(message.clone()), Call::Commit(message)] {
                note(deepest, limits, call_name(&call), depth(|| seen(rattle.call(&call))));
            }
        }
    }
    let mut bytes = vec![1; K::STORE_SIZE];
    note(deepest, limits, "start", depth(|| seen(Set::<K>::start(&mut bytes).is_ok())));
}

fn call_name(call: &Call) -> &'static str {
    match call {
        Call::Judge(_) => "judge",
        Call::Commit(_) => "commit",
        Call::Export(_) => "export",
        Call::Row(..) => "row",
        Call::Counts => "counts",
        Call::CheckAndCopies => "check-and-copies",
        Call::LineOf { .. } => "line-of",
        Call::Value(value) => value.name(),
        Call::Report(_) => "report",
        Call::ReadReport(_) => "read-report",
        Call::Join(_) => "join",
        Call::CheckUpdate(_) => "check-update",
        Call::Propose(_) => "propose",
        Call::PlainTake(_) => "plain-take",
        Call::PlainRow(_) => "plain-row",
        Call::Convert(which) => conversions::ALL[*which].name,
    }
}

/// Keeps the compiler from leaving a call out.
fn seen<T>(answer: T) {
    black_box(answer);
}

/// Bytes of stack that the work wrote below its own entry.
fn depth<F: FnMut()>(mut work: F) -> usize {
    let mut stack = vec![PAINT; ROOM];
    let top = (stack.as_mut_ptr() as usize + ROOM) & !15;
    // SAFETY: `enter` gets a live closure of its own type and a stack of its own, large enough for every call.
    #[cfg(target_arch = "x86_64")]
    unsafe {
        asm!(
            "mov r12, rsp", "mov rsp, {top}", "call {enter}", "mov rsp, r12",
            top = in(reg) top,
            enter = in(reg) enter::<F> as *const (),
            in("rdi") &mut work,
            out("r12") _,
            clobber_abi("C"),
        );
    }
    // SAFETY: as above.
    #[cfg(target_arch = "aarch64")]
    unsafe {
        asm!(
            "mov x20, sp", "mov sp, {top}", "blr {enter}", "mov sp, x20",
            top = in(reg) top,
            enter = in(reg) enter::<F> as *const (),
            in("x0") &mut work,
            out("x20") _,
            clobber_abi("C"),
        );
    }
    top - stack.as_ptr() as usize - stack.iter().take_while(|&&byte| byte == PAINT).count()
}

extern "C" fn enter<F: FnMut()>(work: &mut F) {
    work();
}
