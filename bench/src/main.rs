//! `bench`: times as a table. `bench stack`: stack depths. `bench check`: the store's check in parts. `bench list`: the names.
//! `bench growth [FOLDER]`: time by how much there is, and plots in the folder.
//! `bench one NAME rattle|plain|checked N`: one call N times, for counting instructions.

mod cases;
mod check;
mod clock;
mod conversions;
mod desk;
mod fit;
mod growth;
mod joining;
mod messages;
mod plot;
mod program;
mod reports;
mod sides;
mod stack;
mod timing;
mod updating;
mod values;

fn main() -> std::process::ExitCode {
    program::run()
}
