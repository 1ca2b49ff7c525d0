//! The proved library and programs beside the second program: the same inputs for both, and what is done with the answers.
//!
//! * [`extensions`], [`names`], [`tables`], [`lists`]: calls of the library, compared by the program `compare`.
//! * [`padded_names`], [`alike`]: names and keys in the slots of small tables, compared by it too.
//! * [`edition_two`]: the same for edition two, with [`extensions_two`] and [`mixed_lists`], which are lists in both editions.
//! * [`nights`]: whole nights of recorded calls, by the proved program and the second one, compared by it too.
//! * [`make`]: the maker of nights, also for the program `make_night` and for timing.
//! * [`spelling`]: names in letters of either case, which every part above mixes.
//! * [`wire`], [`record`], [`area`]: the bytes of extensions, recorded calls and tables, without the help of either program.
//! * [`both`], [`kept`]: one call by both programs, and what its number says of the table afterwards.
//! * [`disabled`], [`either_choice`], [`creation`]: what a call of edition one may record by its tack's activation and its own
//!   choice.
//! * [`tally`], [`kind_counts`]: how often each number and each kind came.
//! * [`watchdog`]: an end for a comparison in which a call hangs.

pub mod alike;
pub mod area;
pub mod both;
pub mod call;
pub mod choices;
pub mod creation;
pub mod damage;
pub mod disabled;
pub mod edition_two;
pub mod either_choice;
pub mod extensions;
pub mod extensions_two;
#[cfg(test)]
mod full_table;
pub mod kept;
pub mod kind_counts;
pub mod length;
pub mod lists;
pub mod make;
pub mod marks;
pub mod mixed_lists;
pub mod names;
pub mod nights;
pub mod padded_names;
pub mod plain_names;
pub mod pool;
pub mod random;
pub mod record;
pub mod small_tables;
pub mod sound;
pub mod spelling;
pub mod spoil;
pub mod tables;
pub mod tally;
pub mod watchdog;
pub mod wire;
