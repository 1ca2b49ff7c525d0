//! Worked examples, limits and broken rules, by the papers.

mod calls;
mod calls_two;
mod capitals;
mod disabled;
mod examples;
mod expired;
mod extension;
mod extension_two;
mod journal;
mod manage;
mod manage_two;
mod names;
mod night;
mod refusals;
mod refusals_two;
mod replay;
mod room;
mod room_two;
mod slots_two;
mod soundness;
mod soundness_two;
mod steps;
mod steps_two;
mod totality;
