//! What the archive's calls cost beside the outside model's, and beside plain loops.
//!
//! All is measured in one run, in rounds of slices at which the sides take turns, so that what else the machine does slows every side. A
//! ratio is that of a round: the middle one of the rounds is printed, with the least and the greatest. Each measure first compares what
//! its sides made.

mod clock;
mod lanes;
mod reaches;
mod reads;
mod rounds;
mod rows;
mod scripts;
mod sheets;
mod smallest;
mod turns;
mod updates;

fn main() {
    println!(
        "the middle of {} rounds (the least to the greatest), and what each side takes",
        rounds::ROUNDS
    );
    updates::beside_the_model();
    updates::by_size();
    scripts::beside_the_model();
    lanes::beside_plain_loops();
    sheets::beside_the_model();
    reads::beside_the_model();
    reaches::beside_a_plain_loop();
    smallest::beside_the_model();
    rows::beside_turns_in_a_loop();
}
