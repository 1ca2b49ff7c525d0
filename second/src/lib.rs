//! An independent second program for the TACK pin store of a gateway.
//!
//! It is written from the papers, shares no code with the proved library and
//! uses ordinary structs and maps: the lent area is parsed into records, the
//! records are changed, and the area is written back. Both programs are given
//! the same calls; every answer and every byte afterwards must be the same.
//!
//! There are two editions of the draft, and a table is of one of them.
//!
//! * [`extension`], [`extension_two`]: readers and writers of the TACK extension.
//! * [`judge`](mod@judge), [`judge_two`](mod@judge_two): the verdict on one
//!   finished connection.
//! * [`night`]: the calls of a recorded night, its report and its tally; all of
//!   edition one, and all learning from disabled servers.
//! * [`manage`]: deletion and inspection of a name, starting a table.
//! * [`table`]: the lent area as bytes, and what makes it sound.
//! * [`pins`], [`records`]: the key records and name records behind it.
//! * [`name`], [`minutes`], [`edition`], [`answer`]: names, clocks, editions,
//!   numbers and alerts.
//!
//! Every function answers for every input, but for `Minutes::since` and
//! `Minutes::active_period_end`: they panic at a clock before initial, which
//! no call on a lent area or a kept table brings about. A refusal leaves the
//! lent memory byte for byte as it was, but that 23 of edition one may raise one
//! floor. A caller's name may have capitals, which count as small letters
//! everywhere; a table with a capital is damaged.

#![forbid(unsafe_code)]

pub mod answer;
pub mod edition;
pub mod extension;
pub mod extension_two;
pub mod judge;
pub mod judge_two;
pub mod manage;
pub mod minutes;
pub mod name;
pub mod night;
pub mod pins;
pub mod records;
mod refusal;
pub mod table;

pub use answer::{alert_of, alert_of_two};
pub use edition::Edition;
pub use extension::{BreakSignature, Extension, Reading, Span, Tack, Writing};
pub use extension_two::ShownTack;
pub use judge::{judge, judge_kept, Connection, Judgement};
pub use judge_two::{judge_two, ConnectionTwo};
pub use manage::{delete, inspect, start, Inspection, Outcome};
pub use name::is_well_formed;
pub use night::{read_call, replay, report, write_call, NotRecordable, Tally};
pub use pins::PinTable;
pub use table::{is_sound, parse, Damage, AREA_LENGTH};
