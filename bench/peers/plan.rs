//! The plan peer: `eval` and `plan` in plain Rust, with the same bytes as `spares` and no proof. `README.md` beside it
//! has the page.
//!
//!     plan eval --sites F --parts F --rates F --stocks F
//!     plan plan --sites F --parts F --rates F --budget N [--certificate F]
//!
//! `eval` is at 48 bits; `plan` is by backorders, with nothing on hand and a certificate of format 1. The input may be
//! assumed to be valid: where it isn't, a line on the standard error says so, in other words than those of `spares`.
//!
//! The curves of all families are made whole.

mod case;
mod choice;
mod commands;
mod curves;
mod ends;
mod families;
mod tables;
mod text;

fn main() {
    commands::run(choice::plan_by_curves);
}
