// Runs m17core's Rust and our Rattle side by side. See README.md.
mod cli;
mod events;
mod functions;
mod generate;
mod leaned_on;
mod rng;
mod stand_ins;
mod told;
include!(concat!(env!("OUT_DIR"), "/m17core.rs"));

fn main() {
    cli::main()
}
