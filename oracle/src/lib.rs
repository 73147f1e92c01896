//! The oracle: the published crate's emitter, fed from a plan.
//!
//! The modules under `target/oracle/isle` are copies of the crate's source with the few edits that
//! `oracle/build` applies; those under `standin` take the place of modules of the crate that are
//! not at hand. The rest is ours: the plan's reader, the environments made from it, the count of
//! odd literals, the answer and the schedule check.

#[macro_use]
mod standin {
    #[macro_use]
    pub mod declare_id;
    pub mod disjointsets;
    pub mod error;
    pub mod lexer;
    pub mod log;
}
use standin::{disjointsets, error, lexer};

#[cfg(coverage)]
#[macro_use]
pub mod coverage;

#[allow(warnings)]
#[path = "../../target/oracle/isle/ast.rs"]
pub mod ast;
#[allow(warnings)]
#[cfg_attr(not(coverage), path = "../../target/oracle/isle/codegen.rs")]
#[cfg_attr(coverage, path = "../../target/oracle/coverage/isle/codegen.rs")]
pub mod codegen;
/// The same with calls of [`watch`] in it.
#[allow(warnings)]
#[path = "../../target/oracle/watched/codegen.rs"]
pub mod watched_codegen;
#[allow(warnings)]
#[path = "../../target/oracle/isle/files.rs"]
pub mod files;
#[allow(warnings)]
#[path = "../../target/oracle/isle/sema.rs"]
pub mod sema;
#[allow(warnings)]
#[path = "../../target/oracle/isle/serialize.rs"]
pub mod serialize;
#[allow(warnings)]
#[path = "../../target/oracle/isle/stablemapset.rs"]
pub mod stablemapset;
#[allow(warnings)]
#[path = "../../target/oracle/isle/trie_again.rs"]
pub mod trie_again;

pub mod answer;
pub mod environment;
pub mod odd;
pub mod plan;
pub mod schedule;
pub mod watch;
