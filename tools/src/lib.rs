//! What people see of tables, lists of calls and rule files: their rows in lines that can be turned back, a refusal in words, a run step by
//! step. Nothing here is proved: what is judged and run comes from `reference`, and `./yithrel` prints the proved answer beside it.

pub mod explain;
pub mod notation;
pub mod show;
pub mod trace;
pub mod words;
