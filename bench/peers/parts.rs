//! The parts peer: the words and bytes of the plan peer in `plan.rs`, with less work. `README.md` beside it has the
//! page.
//!
//! Each family's curve is made only near the price at which the budget is spent, and whole if that doesn't serve.

mod bounds;
mod case;
mod choice;
mod commands;
mod curves;
mod ends;
mod families;
mod part_choice;
mod part_curves;
mod price_guess;
mod tables;
mod text;

fn main() {
    commands::run(part_choice::plan_by_parts);
}
