//! Test inputs, all decided by a seed: tables (`tables`) and runs (`runs`), each with a rule file (`rules`).

pub mod body;
pub mod callers;
pub mod faults;
pub mod helpers;
pub mod keys;
pub mod kit;
pub mod limits;
pub mod mutate;
pub mod plan;
pub mod plan_faults;
pub mod rng;
pub mod rounds;
pub mod row_faults;
pub mod rules;
pub mod runs;
pub mod squares;
pub mod structured;
pub mod tables;
pub mod value_faults;
pub mod view_faults;
pub mod wild;
