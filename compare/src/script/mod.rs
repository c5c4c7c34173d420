//! Scripts of calls (docs/DRIVE.md says how they read): the tables of calls and of lent states, and the seeded ones.

mod begun;
mod calls;
mod drawn;
mod lent;
mod states;
mod table;
mod text;
mod turned;

pub use begun::{contenders, orders, pairs};
pub use calls::{admissions, asked, odd_texts, set_ups};
pub use drawn::drawn;
pub use states::{listed, swept};
pub use table::{written, BEGIN, SETTLED, TURNED_AWAY};
pub use turned::{refusals, stretches};
