//! CHECK, RUN and NAME of APS scripts: small tariff programs that a gateway is sent, whose numbers become amounts.
//!
//! The work is done by `libmahrullis.a`, whose code is proved; this crate lends it tables and turns its answers into types. Any bytes, limits and sizes are
//! safe, and every call ends.
//!
//! ```
//! use mahrullis::{End, Gate, Limits};
//!
//! let mut gate = Gate::new();
//! let report = gate.run(b"[ECHO (add 1 2)]", Limits::GREATEST)?;
//! assert_eq!(report.numbers, [3]);
//! assert_eq!(report.end, End::Done);
//! # Ok::<(), mahrullis::Refusal>(())
//! ```
//!
//! A text that is no program, or whose types do not hold, is refused with a code and the byte at which that shows:
//!
//! ```
//! use mahrullis::{Code, Gate};
//!
//! let refusal = Gate::new().check(b"[CONST x int 0; SET x 42]").unwrap_err();
//! assert_eq!((refusal.code, refusal.place), (Code::Type, 16));
//! assert_eq!(refusal.to_string(), "refused 9 at 16: a rule of the types cannot be met here");
//! ```
//!
//! [`Purses`] pay for runs from a journal that the caller keeps, byte by byte, so that a cut at any time leaves them as before or as after a call.
//!
//! What is not promised here: how long a call takes, and anything about where a text comes from or where its numbers go.
#![deny(missing_docs)]
#![deny(unsafe_code)]
#![deny(unsafe_op_in_unsafe_fn)]

mod answers;
mod ffi;
mod gate;
mod limits;
mod purses;
pub mod raw;
mod tree;

pub use answers::{Code, End, Refusal, Stop};
pub use gate::{name_at, Gate, Report};
pub use limits::Limits;
pub use purses::{PurseRefusal, PurseRun, Purses, Step, Steps, PURSES, PURSE_MOST, RECORD_BYTES};
pub use tree::{Children, Kind, Node, Nodes, Tree};
