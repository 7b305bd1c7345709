//! Procedures written by hand for runs: a bank module that keeps coins, boxes and crates in the store, and a user
//! module. A run takes the procedures it wants, and those that they call.

use super::plan::{asm::*, Code, Plan, ProcPlan};
use super::rng::Rng;
use crate::program::Sort;
use crate::row::op;

pub const COIN: u16 = 0;
pub const BOX: u16 = 1;
pub const CRATE: u16 = 2;
pub const TOKEN: u16 = 3;
pub const NOTE: u16 = 4;

const BANK: usize = 0;
const USER: usize = 1;

/// The procedures. Arguments are numbers where not said otherwise; `x` is a number that 1 is taken from at the
/// end, so that 0 stops the call there; `b` is taken from `a`.
#[derive(Clone, Copy, Debug, PartialEq, Eq, PartialOrd, Ord)]
#[repr(u16)]
pub enum Id {
    /// address, value: publishes a coin.
    Mint,
    /// address: the coin's first number.
    Get,
    /// address, value
    Set,
    /// address, value: adds.
    Bump,
    /// address, value: subtracts.
    Take,
    /// address
    Has,
    /// address: withdraws a coin and breaks it up.
    Burn,
    /// from, to
    Shift,
    /// address: publishes a record without fields.
    PutToken,
    /// address: puts the coin there into a box there.
    BoxUp,
    /// address: takes the coin out of the box.
    Unbox,
    /// address
    BoxGet,
    /// address, value
    BoxSet,
    /// address, value: publishes a crate: four records.
    MakeCrate,
    /// address, value: writes into the coin in the box in the crate.
    CrateSet,
    /// address: breaks a crate up and publishes its box.
    Uncrate,
    /// count, address: publishes coins in a row.
    Fill,
    /// count, address
    FillBoxes,
    /// count, address
    FillCrates,
    /// count: makes and breaks up coins, one after the other.
    Churn,
    /// count: each frame holds eight coins in locals.
    Hold8,
    /// count: each frame holds nine coins in locals.
    Hold9,
    /// count: frames on frames.
    Deep,
    /// count: frames of both modules in turn.
    Ping,
    Pong,
    /// count
    Spin,
    Forever,
    Add,
    Subtract,
    Compare,
    /// value: reads a field of a coin broken up.
    StaleField,
    /// value: the same after its room was used again.
    StaleReused,
    /// address: borrows a field through a reference to a published coin broken up.
    StaleGlobal,
    /// address: the same after another coin was published there.
    StaleReplaced,
    /// address: a reference follows its coin into a box and out of it.
    Follow,
    /// address: the same, and then the coin is broken up.
    FollowToEnd,
    /// value: a local of a record emptied.
    StaleRecordLocal,
    /// value: a local of a record emptied and filled again.
    RefilledRecord,
    /// address: a coin moved from a local to the store; its field still works.
    MovedAway,
    /// address: but the local's reference does not.
    StaleMovedAway,
    /// value: gives a reference to its own local.
    Lend,
    /// value, reference: reads it.
    Peek,
    /// value, reference: writes.
    Poke,
    /// value
    StaleFrame,
    /// value: a new frame stands where the old one was.
    StaleFrameReused,
    /// value: writes instead.
    StaleFrameWrite,
    /// value
    StaleEmpty,
    /// value: writes instead.
    StaleEmptyWrite,
    /// value: a local emptied and filled again.
    Refilled,
    /// value: stale references are moved, copied, passed and popped.
    HandleStale,
    /// value: a called procedure writes into the caller's local.
    WriteUp,
    /// address, value, x: writes both numbers, then stops.
    WriteStop,
    /// from, to, x
    MoveStop,
    /// address, x: breaks a coin up, makes another in its room and publishes it.
    BurnStop,
    /// address, x
    BoxStop,
    /// address, value, x: writes in a called procedure, then stops there.
    DeepWriteStop,
    /// count, address, x
    FillStop,
    /// b, a: the other way round than Subtract.
    SubtractTurned,
    /// Takes the highest number from 0.
    ZeroLessMost,
    /// Takes the highest number from itself.
    MostLessMost,
    /// Adds the highest number to itself.
    MostAndMost,
    /// address, value: takes the coin's first number from the value and writes what is left there.
    TakeTurned,
    /// address, value: takes only what is there; gives what it took.
    TakeEnough,
    /// address, more, less: adds and then subtracts.
    Balance,
    /// address, value, a, b: writes a coin's first number and its own local, then the difference.
    WriteTake,
    /// address, a, b: publishes a coin of both, then writes the difference into it.
    PublishTake,
    /// address, value: withdraws a coin, breaks it up, and publishes one that is smaller.
    Repack,
    /// address, value: breaks a crate up, publishes its box, and takes from the coin inside.
    CrateTake,
    /// value, reference: subtracts.
    Deduct,
    /// a, b: its own local is written by a called procedure.
    DeductOwn,
    /// count, address, a, b: frames of both modules in turn that write, the bank's into the coin and the user's into
    /// their locals; the last one subtracts.
    Dig,
    Delve,
    /// from, to, value: the user pays before it takes.
    PayLate,
    /// address, other, value: the user publishes a coin and a note, then has the coin made smaller.
    Order,
    /// value: makes a coin and hands it out.
    Make,
    /// coin: breaks it up.
    Break,
    /// reference to a coin
    Value,
    /// from, to, value: the user pays.
    Pay,
    /// value: the user holds a coin for a while.
    Carry,
    /// address, value: publishes a record of the user's own.
    PutNote,
    /// address
    NoteGet,
    /// address: a read-only reference to the coin's first number.
    Weight,
    /// read-only reference to a coin: one to its first number.
    WeightOf,
    /// value, read-only reference: reads it.
    Label,
    /// read-only reference: gives it back.
    Pass,
    /// read-only reference to a coin: gives it back.
    PassCoin,
    /// value: gives a read-only reference to its own local.
    LendFrozen,
    /// address: the user reads a number of the bank's through a reference that it is given.
    ShowLabel,
    /// address: the same through one that it asked for.
    ReadWeight,
    /// value: the user hands a read-only reference to its coin on, and reads the one that comes back.
    WeighOwn,
    /// value: the same after the coin was broken up.
    WeighBroken,
    /// address: borrows through read-only references.
    BoxWeight,
    /// address, value: reads through a frozen reference what was written through the writable one.
    SeeWrite,
    /// address, value: the same in two modules.
    WatchWrite,
    /// value: reads a frozen local of a frame that has returned.
    ReadLent,
    /// value: the same in a new frame where the old one was.
    LabelLent,
    /// value: stale references are frozen, moved, copied, passed, returned and popped.
    HandleFrozen,
    /// value: the same with references to a coin broken up.
    HandleFrozenCoin,
    /// Early: procedures above with each reference frozen before it is kept.
    EarlyStaleField,
    EarlyStaleReused,
    EarlyStaleGlobal,
    EarlyStaleReplaced,
    EarlyStaleRecordLocal,
    EarlyRefilledRecord,
    EarlyMovedAway,
    EarlyStaleMovedAway,
    EarlyStaleFrame,
    EarlyStaleEmpty,
    EarlyRefilled,
    /// Late: procedures above with each reference frozen after it is taken from its local.
    LateStaleField,
    LateStaleGlobal,
    LateStaleRecordLocal,
    LateStaleFrame,
    LateStaleEmpty,
    /// address: a reference to the coin's first number. Private, as are those below.
    Slot,
    /// address: references to both numbers of the coin.
    Slots,
    /// reference: gives it back.
    Hand,
    /// two references: gives them back the other way round.
    Swap,
    /// reference, value: adds.
    Raise,
    /// value, reference: subtracts.
    Lower,
    /// count, reference, value: frames on frames; the last one writes.
    Sink,
    /// count, two references: gives the first or the second one back; calls Odd with them turned.
    Even,
    Odd,
    /// reference, address: publishes a coin, then writes.
    PublishBeside,
    /// reference, address: withdraws a coin and breaks it up, then writes.
    WithdrawBeside,
    /// reference, count: writes, then each frame holds nine coins in locals.
    HoldBeside,
    /// reference, count, address: publishes coins in a row, then writes.
    FillBeside,
    /// reference, count: writes in a loop.
    SpinBeside,
    /// address, value: writes through what a helper gives. Public, as are those below.
    HelpSet,
    /// address, value
    HelpBump,
    /// address, value
    HelpTake,
    /// address: exchanges the numbers of the coin.
    HelpSwap,
    /// count, address, value
    HelpDeep,
    /// count, address, value: writes the first or the second number.
    HelpEither,
    /// address: a helper is given a reference to a coin broken up.
    HelpStale,
    /// address: the same after its room was used again.
    HelpStaleReused,
    /// address, value, x: writes through helpers, then stops.
    HelpStop,
    /// address, value, b: writes in frames of helpers, then subtracts in one.
    HelpDeepStop,
    /// address, other
    HelpPublish,
    /// address, other
    HelpWithdraw,
    /// count, address
    HelpHold,
    /// address, count, from
    HelpFill,
    /// address, count
    HelpSpin,
    /// address: the user reads what a helper gave.
    HelpShow,
    /// address: what a helper gave follows its coin into a box.
    HelpFollow,
    /// from, to, value: the user pays by way of helpers.
    HelpPay,
}

/// In the order of their numbers.
pub const ALL: [Id; 146] = [
    Id::Mint,
    Id::Get,
    Id::Set,
    Id::Bump,
    Id::Take,
    Id::Has,
    Id::Burn,
    Id::Shift,
    Id::PutToken,
    Id::BoxUp,
    Id::Unbox,
    Id::BoxGet,
    Id::BoxSet,
    Id::MakeCrate,
    Id::CrateSet,
    Id::Uncrate,
    Id::Fill,
    Id::FillBoxes,
    Id::FillCrates,
    Id::Churn,
    Id::Hold8,
    Id::Hold9,
    Id::Deep,
    Id::Ping,
    Id::Pong,
    Id::Spin,
    Id::Forever,
    Id::Add,
    Id::Subtract,
    Id::Compare,
    Id::StaleField,
    Id::StaleReused,
    Id::StaleGlobal,
    Id::StaleReplaced,
    Id::Follow,
    Id::FollowToEnd,
    Id::StaleRecordLocal,
    Id::RefilledRecord,
    Id::MovedAway,
    Id::StaleMovedAway,
    Id::Lend,
    Id::Peek,
    Id::Poke,
    Id::StaleFrame,
    Id::StaleFrameReused,
    Id::StaleFrameWrite,
    Id::StaleEmpty,
    Id::StaleEmptyWrite,
    Id::Refilled,
    Id::HandleStale,
    Id::WriteUp,
    Id::WriteStop,
    Id::MoveStop,
    Id::BurnStop,
    Id::BoxStop,
    Id::DeepWriteStop,
    Id::FillStop,
    Id::SubtractTurned,
    Id::ZeroLessMost,
    Id::MostLessMost,
    Id::MostAndMost,
    Id::TakeTurned,
    Id::TakeEnough,
    Id::Balance,
    Id::WriteTake,
    Id::PublishTake,
    Id::Repack,
    Id::CrateTake,
    Id::Deduct,
    Id::DeductOwn,
    Id::Dig,
    Id::Delve,
    Id::PayLate,
    Id::Order,
    Id::Make,
    Id::Break,
    Id::Value,
    Id::Pay,
    Id::Carry,
    Id::PutNote,
    Id::NoteGet,
    Id::Weight,
    Id::WeightOf,
    Id::Label,
    Id::Pass,
    Id::PassCoin,
    Id::LendFrozen,
    Id::ShowLabel,
    Id::ReadWeight,
    Id::WeighOwn,
    Id::WeighBroken,
    Id::BoxWeight,
    Id::SeeWrite,
    Id::WatchWrite,
    Id::ReadLent,
    Id::LabelLent,
    Id::HandleFrozen,
    Id::HandleFrozenCoin,
    Id::EarlyStaleField,
    Id::EarlyStaleReused,
    Id::EarlyStaleGlobal,
    Id::EarlyStaleReplaced,
    Id::EarlyStaleRecordLocal,
    Id::EarlyRefilledRecord,
    Id::EarlyMovedAway,
    Id::EarlyStaleMovedAway,
    Id::EarlyStaleFrame,
    Id::EarlyStaleEmpty,
    Id::EarlyRefilled,
    Id::LateStaleField,
    Id::LateStaleGlobal,
    Id::LateStaleRecordLocal,
    Id::LateStaleFrame,
    Id::LateStaleEmpty,
    Id::Slot,
    Id::Slots,
    Id::Hand,
    Id::Swap,
    Id::Raise,
    Id::Lower,
    Id::Sink,
    Id::Even,
    Id::Odd,
    Id::PublishBeside,
    Id::WithdrawBeside,
    Id::HoldBeside,
    Id::FillBeside,
    Id::SpinBeside,
    Id::HelpSet,
    Id::HelpBump,
    Id::HelpTake,
    Id::HelpSwap,
    Id::HelpDeep,
    Id::HelpEither,
    Id::HelpStale,
    Id::HelpStaleReused,
    Id::HelpStop,
    Id::HelpDeepStop,
    Id::HelpPublish,
    Id::HelpWithdraw,
    Id::HelpHold,
    Id::HelpFill,
    Id::HelpSpin,
    Id::HelpShow,
    Id::HelpFollow,
    Id::HelpPay,
];

const N: Sort = Sort::Number;
const R: Sort = Sort::NumberRef;
const V: Sort = Sort::NumberView;
const C: Sort = Sort::Record(COIN as u8);
const CR: Sort = Sort::RecordRef(COIN as u8);
const CV: Sort = Sort::RecordView(COIN as u8);

/// A call before procedures have numbers.
const fn to(id: Id) -> Code {
    call(id as u16)
}

const fn bank(params: Vec<Sort>, others: Vec<Sort>, results: Vec<Sort>, code: Vec<Code>) -> ProcPlan {
    ProcPlan { module: BANK, public: true, params, others, results, code }
}

const fn helper(params: Vec<Sort>, others: Vec<Sort>, results: Vec<Sort>, code: Vec<Code>) -> ProcPlan {
    ProcPlan { module: BANK, public: false, params, others, results, code }
}

const fn user(params: Vec<Sort>, others: Vec<Sort>, results: Vec<Sort>, code: Vec<Code>) -> ProcPlan {
    ProcPlan { module: USER, public: true, params, others, results, code }
}

fn join(parts: &[&[Code]]) -> Vec<Code> {
    parts.concat()
}

/// Takes 1 from the number local and drops what is left.
pub fn less_one(local: u16) -> [Code; 4] {
    [mv(local), load(1), arith(SUB), pop()]
}

/// Breaks up the coin on top.
const BREAK: [Code; 3] = [unpack(COIN), pop(), pop()];

type Writer = fn(Id) -> ProcPlan;

/// The procedure, with calls that name an `Id`.
fn procedure(id: Id) -> ProcPlan {
    let groups: [(Id, Writer); 15] = [
        (Id::Uncrate, store_procedure),
        (Id::Hold9, many_records),
        (Id::Compare, plain),
        (Id::StaleMovedAway, record_references),
        (Id::WriteUp, local_references),
        (Id::FillStop, stopping),
        (Id::Balance, subtracting),
        (Id::CrateTake, subtracting_late),
        (Id::Order, subtracting_below),
        (Id::NoteGet, handed_out),
        (Id::HandleFrozenCoin, read_only),
        (Id::EarlyRefilled, frozen_when_kept),
        (Id::LateStaleEmpty, frozen_when_used),
        (Id::Odd, helper_for_one),
        (Id::SpinBeside, helper_beside),
    ];
    let group = groups.iter().find(|(last, _)| id <= *last);
    group.map_or(helped as Writer, |(_, write)| *write)(id)
}

fn store_procedure(id: Id) -> ProcPlan {
    let first = [mv(0), global(COIN), field(COIN, 0)];
    match id {
        Id::Mint => bank(vec![N, N], vec![], vec![], vec![mv(1), load(9), pack(COIN), mv(0), move_to(COIN), ret()]),
        Id::Get => bank(vec![N], vec![], vec![N], join(&[&first, &[read(), ret()]])),
        Id::Set => bank(vec![N, N], vec![], vec![], join(&[&[mv(1)], &first, &[write(), ret()]])),
        Id::Bump => {
            let code = join(&[&first, &[st(2), cp(2), read(), mv(1), arith(ADD), mv(2), write(), ret()]]);
            bank(vec![N, N], vec![R], vec![], code)
        }
        Id::Take => {
            let code = join(&[&first, &[st(2), cp(2), read(), mv(1), arith(SUB), cp(2), write(), ret()]]);
            bank(vec![N, N], vec![R], vec![], code)
        }
        Id::Has => bank(vec![N], vec![], vec![N], vec![mv(0), exists(COIN), ret()]),
        Id::Burn => bank(vec![N], vec![], vec![N, N], vec![mv(0), move_from(COIN), unpack(COIN), ret()]),
        Id::Shift => bank(vec![N, N], vec![], vec![], vec![mv(0), move_from(COIN), mv(1), move_to(COIN), ret()]),
        Id::PutToken => bank(vec![N], vec![], vec![], vec![pack(TOKEN), mv(0), move_to(TOKEN), ret()]),
        Id::BoxUp => {
            let code = vec![cp(0), move_from(COIN), load(5), pack(BOX), mv(0), move_to(BOX), ret()];
            bank(vec![N], vec![], vec![], code)
        }
        Id::Unbox => {
            let code = vec![cp(0), move_from(BOX), unpack(BOX), st(1), mv(0), move_to(COIN), mv(1), ret()];
            bank(vec![N], vec![N], vec![N], code)
        }
        Id::BoxGet => {
            let code = vec![mv(0), global(BOX), field(BOX, 0), field(COIN, 0), read(), ret()];
            bank(vec![N], vec![], vec![N], code)
        }
        Id::BoxSet => {
            let code = vec![mv(1), mv(0), global(BOX), field(BOX, 0), field(COIN, 1), write(), ret()];
            bank(vec![N, N], vec![], vec![], code)
        }
        Id::MakeCrate => bank(vec![N, N], vec![], vec![], join(&[&crate_of(1), &[mv(0), move_to(CRATE), ret()]])),
        Id::CrateSet => {
            let way = [mv(0), global(CRATE), field(CRATE, 0), field(BOX, 0), field(COIN, 0)];
            bank(vec![N, N], vec![], vec![], join(&[&[mv(1)], &way, &[write(), ret()]]))
        }
        _ => {
            let apart = [cp(0), move_from(CRATE), unpack(CRATE)];
            bank(vec![N], vec![], vec![], join(&[&apart, &BREAK, &[mv(0), move_to(BOX), ret()]]))
        }
    }
}

/// Pushes a crate: a box with a coin, and a coin.
fn crate_of(local: u16) -> [Code; 9] {
    [cp(local), load(1), pack(COIN), load(2), pack(BOX), cp(local), load(3), pack(COIN), pack(CRATE)]
}

fn many_records(id: Id) -> ProcPlan {
    let coin = vec![cp(1), load(1), pack(COIN)];
    match id {
        Id::Fill => fill(COIN, &coin),
        Id::FillBoxes => fill(BOX, &join(&[&coin, &[load(2), pack(BOX)]])),
        Id::FillCrates => fill(CRATE, &crate_of(1)),
        Id::Churn => {
            let round = [load(1), load(2), pack(COIN), unpack(COIN), pop(), pop()];
            let count = [cp(0), load(1), arith(SUB), st(0), jump(0)];
            bank(vec![N], vec![], vec![], join(&[&[cp(0), jump_if(3), ret()], &round, &count]))
        }
        Id::Hold8 => hold(id, 8),
        _ => hold(id, 9),
    }
}

/// Local 0 counts down, local 1 is the address.
fn fill(of: u16, make: &[Code]) -> ProcPlan {
    let publish = [cp(1), move_to(of), cp(1), load(1), arith(ADD), st(1)];
    let count = [cp(0), load(1), arith(SUB), st(0), jump(0)];
    bank(vec![N, N], vec![], vec![], join(&[&[cp(0), jump_if(3), ret()], make, &publish, &count]))
}

/// Fills `count` locals with coins, calls itself if the parameter is not 0, then breaks the coins up.
fn hold(id: Id, count: u16) -> ProcPlan {
    let mut code = Vec::new();
    for local in 1..=count {
        code.extend([load(u64::from(local)), load(0), pack(COIN), st(local)]);
    }
    let here = code.len() as u16;
    code.extend([cp(0), jump_if(here + 3), jump(here + 7), cp(0), load(1), arith(SUB), to(id)]);
    for local in 1..=count {
        code.push(mv(local));
        code.extend(BREAK);
    }
    code.push(ret());
    bank(vec![N], vec![C; usize::from(count)], vec![], code)
}

fn plain(id: Id) -> ProcPlan {
    let again = |other: Id| vec![cp(0), jump_if(3), ret(), mv(0), load(1), arith(SUB), to(other), ret()];
    match id {
        Id::Deep => bank(vec![N], vec![], vec![], again(Id::Deep)),
        Id::Ping => bank(vec![N], vec![], vec![], again(Id::Pong)),
        Id::Pong => user(vec![N], vec![], vec![], again(Id::Ping)),
        Id::Spin => {
            let code = vec![cp(0), jump_if(3), ret(), cp(0), load(1), arith(SUB), st(0), jump(0)];
            user(vec![N], vec![], vec![], code)
        }
        Id::Forever => user(vec![], vec![], vec![], vec![jump(0)]),
        Id::Add => user(vec![N, N], vec![], vec![N], vec![mv(0), mv(1), arith(ADD), ret()]),
        Id::Subtract => user(vec![N, N], vec![], vec![N], vec![mv(0), mv(1), arith(SUB), ret()]),
        _ => {
            let code = vec![cp(0), cp(1), arith(EQUAL), cp(0), cp(1), arith(LESS), cp(1), cp(0), arith(LESS), ret()];
            user(vec![N, N], vec![], vec![N, N, N], code)
        }
    }
}

/// Locals: 0 a value or an address, 1 a coin, 2 a reference to a number, 3 a reference to a coin.
fn record_references(id: Id) -> ProcPlan {
    let make = [cp(0), load(2), pack(COIN), st(1)];
    let borrow_field = [borrow(1), field(COIN, 0), st(2)];
    let break_up = join(&[&[mv(1)], &BREAK]);
    let use_field = [cp(2), read()];
    let use_coin = [cp(3), field(COIN, 1), read()];
    let borrow_stored = [cp(0), global(COIN), st(3)];
    let break_stored = join(&[&[cp(0), move_from(COIN)], &BREAK]);
    let code = match id {
        Id::StaleField => join(&[&make, &borrow_field, &break_up, &use_field]),
        Id::StaleReused => join(&[&make, &borrow_field, &break_up, &make, &use_field, &break_up]),
        Id::StaleGlobal => join(&[&borrow_stored, &break_stored, &use_coin]),
        Id::StaleReplaced => join(&[&borrow_stored, &break_stored, &make, &[mv(1), cp(0), move_to(COIN)], &use_coin]),
        Id::Follow | Id::FollowToEnd => {
            let keep = [cp(3), field(COIN, 0), st(2)];
            let box_up = [cp(0), move_from(COIN), load(8), pack(BOX), cp(0), move_to(BOX)];
            let write = [load(41), cp(2), write()];
            let unbox = [cp(0), move_from(BOX), unpack(BOX), pop(), st(1)];
            let end = match id {
                Id::Follow => vec![mv(1), cp(0), move_to(COIN)],
                _ => break_up,
            };
            join(&[&borrow_stored, &keep, &box_up, &write, &unbox, &end, &use_field])
        }
        Id::StaleRecordLocal => join(&[&make, &[borrow(1), st(3)], &break_up, &use_coin]),
        Id::RefilledRecord => {
            let other = [load(1), load(33), pack(COIN), st(1)];
            join(&[&make, &[borrow(1), st(3)], &break_up, &other, &use_coin, &break_up])
        }
        Id::MovedAway => join(&[&make, &borrow_field, &[mv(1), cp(0), move_to(COIN)], &use_field]),
        _ => join(&[&make, &[borrow(1), st(3)], &[mv(1), cp(0), move_to(COIN)], &use_coin]),
    };
    bank(vec![N], vec![C, R, CR], vec![N], join(&[&code, &[ret()]]))
}

/// Local 0 is a value, local 1 a reference to a number.
fn local_references(id: Id) -> ProcPlan {
    let lend = [cp(0), to(Id::Lend), st(1)];
    let own = [borrow(0), st(1), mv(0), pop()];
    match id {
        Id::Lend => return user(vec![N], vec![], vec![R], vec![borrow(0), ret()]),
        Id::Peek => return user(vec![N, R], vec![], vec![N], vec![mv(1), read(), ret()]),
        Id::Poke => return user(vec![N, R], vec![], vec![], vec![mv(0), mv(1), write(), ret()]),
        _ => {}
    }
    let code = match id {
        Id::StaleFrame => join(&[&lend, &[cp(1), read()]]),
        Id::StaleFrameReused => join(&[&lend, &[load(77), cp(1), to(Id::Peek)]]),
        Id::StaleFrameWrite => join(&[&lend, &[cp(0), cp(1), write(), mv(0)]]),
        Id::StaleEmpty => join(&[&own, &[mv(1), read()]]),
        Id::StaleEmptyWrite => join(&[&own, &[load(3), cp(1), write(), load(4)]]),
        Id::Refilled => join(&[&own, &[load(5), st(0), cp(1), read()]]),
        Id::HandleStale => {
            join(&[&lend, &[cp(1), pop(), mv(1), st(1), load(6), borrow(0), cp(1), pop(), to(Id::Peek)]])
        }
        _ => join(&[&[load(12), borrow(0), to(Id::Poke)], &[load(1), borrow(0), to(Id::Peek)]]),
    };
    user(vec![N], vec![R], vec![N], join(&[&code, &[ret()]]))
}

fn stopping(id: Id) -> ProcPlan {
    match id {
        Id::WriteStop => {
            let both = [
                cp(0),
                global(COIN),
                st(3),
                cp(1),
                cp(3),
                field(COIN, 0),
                write(),
                cp(1),
                cp(3),
                field(COIN, 1),
                write(),
            ];
            bank(vec![N, N, N], vec![CR], vec![], join(&[&both, &less_one(2), &[ret()]]))
        }
        Id::MoveStop => {
            let shift = [mv(0), move_from(COIN), mv(1), move_to(COIN)];
            bank(vec![N, N, N], vec![], vec![], join(&[&shift, &less_one(2), &[ret()]]))
        }
        Id::BurnStop => {
            let burn = join(&[&[cp(0), move_from(COIN)], &BREAK]);
            let again = [load(70), load(71), pack(COIN), cp(0), move_to(COIN)];
            bank(vec![N, N], vec![], vec![], join(&[&burn, &again, &less_one(1), &[ret()]]))
        }
        Id::BoxStop => {
            let boxing = [cp(0), move_from(COIN), load(5), pack(BOX), cp(0), move_to(BOX)];
            let inside = [load(99), cp(0), global(BOX), field(BOX, 0), field(COIN, 0), write()];
            bank(vec![N, N], vec![], vec![], join(&[&boxing, &inside, &less_one(1), &[ret()]]))
        }
        Id::DeepWriteStop => {
            let code = vec![cp(0), cp(1), to(Id::Set), mv(0), mv(1), mv(2), to(Id::WriteStop), ret()];
            user(vec![N, N, N], vec![], vec![], code)
        }
        _ => {
            let code = join(&[&[mv(0), mv(1), to(Id::Fill)], &less_one(2), &[ret()]]);
            user(vec![N, N, N], vec![], vec![], code)
        }
    }
}

/// Differences, and sums, of arguments, of constants and of numbers in the store.
fn subtracting(id: Id) -> ProcPlan {
    let keep = [mv(0), global(COIN), field(COIN, 0), st(2)];
    match id {
        Id::SubtractTurned => user(vec![N, N], vec![], vec![N], vec![mv(1), mv(0), arith(SUB), ret()]),
        Id::ZeroLessMost => user(vec![], vec![], vec![N], vec![load(0), load(u64::MAX), arith(SUB), ret()]),
        Id::MostLessMost => bank(vec![], vec![], vec![N], vec![load(u64::MAX), load(u64::MAX), arith(SUB), ret()]),
        Id::MostAndMost => bank(vec![], vec![], vec![N], vec![load(u64::MAX), load(u64::MAX), arith(ADD), ret()]),
        Id::TakeTurned => {
            let code = join(&[&keep, &[mv(1), cp(2), read(), arith(SUB), mv(2), write(), ret()]]);
            bank(vec![N, N], vec![R], vec![], code)
        }
        Id::TakeEnough => {
            let ask = [cp(2), read(), cp(1), arith(LESS), jump_if(17)];
            let take = [cp(2), read(), cp(1), arith(SUB), mv(2), write(), mv(1), ret()];
            bank(vec![N, N], vec![R], vec![N], join(&[&keep, &ask, &take, &[load(0), ret()]]))
        }
        _ => {
            let keep = [mv(0), global(COIN), field(COIN, 0), st(3)];
            let code = join(&[&keep, &[cp(3), read(), mv(1), arith(ADD), mv(2), arith(SUB), mv(3), write(), ret()]]);
            bank(vec![N, N, N], vec![R], vec![], code)
        }
    }
}

/// Differences after writing, publishing, withdrawing and breaking up.
fn subtracting_late(id: Id) -> ProcPlan {
    match id {
        Id::WriteTake => {
            let stored = [cp(1), cp(0), global(COIN), field(COIN, 0), write()];
            let own = [load(8), st(4), borrow(4), st(5), cp(1), cp(5), write()];
            let take = [mv(2), mv(3), arith(SUB), mv(0), global(COIN), field(COIN, 1), write(), mv(4), ret()];
            bank(vec![N; 4], vec![N, R], vec![N], join(&[&stored, &own, &take]))
        }
        Id::PublishTake => {
            let publish = [cp(1), cp(2), pack(COIN), cp(0), move_to(COIN)];
            let take = [mv(1), mv(2), arith(SUB), mv(0), global(COIN), field(COIN, 1), write(), ret()];
            bank(vec![N; 3], vec![], vec![], join(&[&publish, &take]))
        }
        Id::Repack => {
            let take = [cp(0), move_from(COIN), unpack(COIN), st(2), mv(1), arith(SUB)];
            bank(vec![N, N], vec![N], vec![], join(&[&take, &[mv(2), pack(COIN), mv(0), move_to(COIN), ret()]]))
        }
        _ => {
            let apart = join(&[&[cp(0), move_from(CRATE), unpack(CRATE)], &BREAK, &[cp(0), move_to(BOX)]]);
            let keep = [mv(0), global(BOX), field(BOX, 0), field(COIN, 0), st(2)];
            let take = [cp(2), read(), mv(1), arith(SUB), mv(2), write(), ret()];
            bank(vec![N, N], vec![R], vec![], join(&[&apart, &keep, &take]))
        }
    }
}

/// Differences in called frames.
fn subtracting_below(id: Id) -> ProcPlan {
    match id {
        Id::Deduct => user(vec![N, R], vec![], vec![], vec![cp(1), read(), mv(0), arith(SUB), mv(1), write(), ret()]),
        Id::DeductOwn => user(vec![N, N], vec![], vec![N], vec![mv(1), borrow(0), to(Id::Deduct), mv(0), ret()]),
        Id::Dig => {
            let note = [cp(0), cp(1), global(COIN), field(COIN, 1), write(), cp(0), jump_if(15)];
            let take = [mv(2), mv(3), arith(SUB), mv(1), global(COIN), field(COIN, 0), write(), ret()];
            let down = [mv(0), load(1), arith(SUB), mv(1), mv(2), mv(3), to(Id::Delve), ret()];
            bank(vec![N; 4], vec![], vec![], join(&[&note, &take, &down]))
        }
        Id::Delve => {
            let ask = [borrow(0), st(4), cp(4), read(), jump_if(10)];
            let take = [mv(2), mv(3), arith(SUB), pop(), ret()];
            let count = [cp(4), read(), load(1), arith(SUB), mv(4), write()];
            let down = [mv(0), mv(1), mv(2), mv(3), to(Id::Dig), ret()];
            user(vec![N; 4], vec![R], vec![], join(&[&ask, &take, &count, &down]))
        }
        Id::PayLate => {
            let code = vec![mv(1), cp(2), to(Id::Bump), mv(0), mv(2), to(Id::Take), ret()];
            user(vec![N, N, N], vec![], vec![], code)
        }
        _ => {
            let publish = [cp(1), cp(2), to(Id::Mint), mv(1), cp(2), to(Id::PutNote)];
            user(vec![N, N, N], vec![], vec![], join(&[&publish, &[mv(0), mv(2), to(Id::Repack), ret()]]))
        }
    }
}

/// Records and references to them in other hands.
fn handed_out(id: Id) -> ProcPlan {
    match id {
        Id::Make => bank(vec![N], vec![], vec![C], vec![mv(0), load(3), pack(COIN), ret()]),
        Id::Break => bank(vec![C], vec![], vec![N], vec![mv(0), unpack(COIN), pop(), ret()]),
        Id::Value => bank(vec![CR], vec![], vec![N], vec![mv(0), field(COIN, 0), read(), ret()]),
        Id::Pay => {
            let code = vec![mv(0), cp(2), to(Id::Take), mv(1), mv(2), to(Id::Bump), ret()];
            user(vec![N, N, N], vec![], vec![], code)
        }
        Id::Carry => {
            let code =
                vec![mv(0), to(Id::Make), st(1), borrow(1), to(Id::Value), mv(1), to(Id::Break), arith(ADD), ret()];
            user(vec![N], vec![C], vec![N], code)
        }
        Id::PutNote => user(vec![N, N], vec![], vec![], vec![mv(1), pack(NOTE), mv(0), move_to(NOTE), ret()]),
        _ => user(vec![N], vec![], vec![N], vec![mv(0), global(NOTE), field(NOTE, 0), read(), ret()]),
    }
}

/// Read-only references, also in other hands.
fn read_only(id: Id) -> ProcPlan {
    let lend = [cp(0), to(Id::Lend), freeze(), st(1)];
    let weigh = [mv(0), to(Id::Make), st(1), borrow(1), freeze(), to(Id::WeightOf)];
    match id {
        Id::Weight => bank(vec![N], vec![], vec![V], vec![mv(0), global(COIN), field(COIN, 0), freeze(), ret()]),
        Id::WeightOf => bank(vec![CV], vec![], vec![V], vec![mv(0), field(COIN, 0), ret()]),
        Id::Label => user(vec![N, V], vec![], vec![N], vec![mv(1), read(), ret()]),
        Id::Pass => user(vec![V], vec![], vec![V], vec![mv(0), ret()]),
        Id::PassCoin => user(vec![CV], vec![], vec![CV], vec![mv(0), ret()]),
        Id::LendFrozen => user(vec![N], vec![], vec![V], vec![borrow(0), freeze(), ret()]),
        Id::ShowLabel => {
            let code = vec![load(1), mv(0), global(COIN), field(COIN, 0), freeze(), to(Id::Label), ret()];
            bank(vec![N], vec![], vec![N], code)
        }
        Id::ReadWeight => user(vec![N], vec![], vec![N], vec![mv(0), to(Id::Weight), read(), ret()]),
        Id::WeighOwn => {
            let code = join(&[&weigh, &[read(), mv(1), to(Id::Break), arith(ADD), ret()]]);
            user(vec![N], vec![C], vec![N], code)
        }
        Id::WeighBroken => {
            let code = join(&[&weigh, &[st(2), mv(1), to(Id::Break), pop(), cp(2), read(), ret()]]);
            user(vec![N], vec![C, V], vec![N], code)
        }
        Id::BoxWeight => {
            let code = vec![mv(0), global(BOX), freeze(), field(BOX, 0), field(COIN, 0), read(), ret()];
            bank(vec![N], vec![], vec![N], code)
        }
        Id::SeeWrite => {
            let both = [mv(0), global(COIN), field(COIN, 0), st(2), cp(2), freeze(), st(3)];
            let code = join(&[&both, &[mv(1), mv(2), write(), mv(3), read(), ret()]]);
            bank(vec![N, N], vec![R, V], vec![N], code)
        }
        Id::WatchWrite => {
            let code = vec![cp(0), to(Id::Weight), st(2), mv(0), mv(1), to(Id::Set), cp(2), read(), ret()];
            user(vec![N, N], vec![V], vec![N], code)
        }
        Id::ReadLent => user(vec![N], vec![], vec![N], vec![mv(0), to(Id::LendFrozen), read(), ret()]),
        Id::LabelLent => {
            let code = vec![load(77), mv(0), to(Id::LendFrozen), to(Id::Label), ret()];
            user(vec![N], vec![], vec![N], code)
        }
        Id::HandleFrozen => {
            let handle = [cp(1), pop(), mv(1), st(1), cp(1), to(Id::Pass), st(1)];
            let code = join(&[&lend, &handle, &[load(6), borrow(0), freeze(), to(Id::Label), ret()]]);
            user(vec![N], vec![V], vec![N], code)
        }
        _ => {
            let stale = join(&[&[cp(0), load(2), pack(COIN), st(1), borrow(1), st(2), mv(1)], &BREAK]);
            let handle = [cp(2), freeze(), st(3), cp(3), pop(), mv(3), to(Id::PassCoin), pop(), mv(0), ret()];
            bank(vec![N], vec![C, CR, CV], vec![N], join(&[&stale, &handle]))
        }
    }
}

fn frozen_when_kept(id: Id) -> ProcPlan {
    let mut one = procedure(match id {
        Id::EarlyStaleField => Id::StaleField,
        Id::EarlyStaleReused => Id::StaleReused,
        Id::EarlyStaleGlobal => Id::StaleGlobal,
        Id::EarlyStaleReplaced => Id::StaleReplaced,
        Id::EarlyStaleRecordLocal => Id::StaleRecordLocal,
        Id::EarlyRefilledRecord => Id::RefilledRecord,
        Id::EarlyMovedAway => Id::MovedAway,
        Id::EarlyStaleMovedAway => Id::StaleMovedAway,
        Id::EarlyStaleFrame => Id::StaleFrame,
        Id::EarlyStaleEmpty => Id::StaleEmpty,
        _ => Id::Refilled,
    });
    one.code = freeze_beside(&one, |code| if code.op == op::ST_LOC { vec![freeze(), code] } else { vec![code] });
    one.others = one.others.iter().map(|&sort| sort.frozen().unwrap_or(sort)).collect();
    one
}

fn frozen_when_used(id: Id) -> ProcPlan {
    let mut one = procedure(match id {
        Id::LateStaleField => Id::StaleField,
        Id::LateStaleGlobal => Id::StaleGlobal,
        Id::LateStaleRecordLocal => Id::StaleRecordLocal,
        Id::LateStaleFrame => Id::StaleFrame,
        _ => Id::StaleEmpty,
    });
    one.code = freeze_beside(&one, |code| if code.op == op::ST_LOC { vec![code] } else { vec![code, freeze()] });
    one
}

/// The code with each move or copy to and from a local of a reference rewritten. There are no jumps in it.
fn freeze_beside(one: &ProcPlan, rewrite: impl Fn(Code) -> Vec<Code>) -> Vec<Code> {
    let sorts = one.locals();
    let on_reference = |code: Code| {
        matches!(code.op, op::MV_LOC | op::CP_LOC | op::ST_LOC) && sorts[usize::from(code.b)].is_reference()
    };
    one.code.iter().flat_map(|&code| if on_reference(code) { rewrite(code) } else { vec![code] }).collect()
}

/// Private procedures of the bank for references to numbers of coins.
fn helper_for_one(id: Id) -> ProcPlan {
    let turn = |other: Id| {
        let code = vec![cp(0), jump_if(4), mv(1), ret(), mv(0), load(1), arith(SUB), mv(2), mv(1), to(other), ret()];
        helper(vec![N, R, R], vec![], vec![R], code)
    };
    match id {
        Id::Slot => helper(vec![N], vec![], vec![R], vec![mv(0), global(COIN), field(COIN, 0), ret()]),
        Id::Slots => {
            let code = vec![cp(0), global(COIN), field(COIN, 0), mv(0), global(COIN), field(COIN, 1), ret()];
            helper(vec![N], vec![], vec![R, R], code)
        }
        Id::Hand => helper(vec![R], vec![], vec![R], vec![mv(0), ret()]),
        Id::Swap => helper(vec![R, R], vec![], vec![R, R], vec![mv(1), mv(0), ret()]),
        Id::Raise => helper(vec![R, N], vec![], vec![], vec![cp(0), read(), mv(1), arith(ADD), mv(0), write(), ret()]),
        Id::Lower => helper(vec![N, R], vec![], vec![], vec![cp(1), read(), mv(0), arith(SUB), mv(1), write(), ret()]),
        Id::Sink => {
            let down = [mv(0), load(1), arith(SUB), mv(1), mv(2), to(Id::Sink), ret()];
            let code = join(&[&[cp(0), jump_if(6), mv(2), mv(1), write(), ret()], &down]);
            helper(vec![N, R, N], vec![], vec![], code)
        }
        Id::Even => turn(Id::Odd),
        _ => turn(Id::Even),
    }
}

/// The same; they do other things while they hold the reference, their parameter 0.
fn helper_beside(id: Id) -> ProcPlan {
    let last = [load(3), mv(0), write(), ret()];
    match id {
        Id::PublishBeside => {
            let publish = [load(7), load(8), pack(COIN), mv(1), move_to(COIN)];
            helper(vec![R, N], vec![], vec![], join(&[&publish, &last]))
        }
        Id::WithdrawBeside => {
            let withdraw = join(&[&[mv(1), move_from(COIN)], &BREAK]);
            helper(vec![R, N], vec![], vec![], join(&[&withdraw, &last]))
        }
        Id::HoldBeside => {
            let mut code = vec![cp(1), cp(0), write()];
            for local in 2..11 {
                code.extend([load(u64::from(local)), load(0), pack(COIN), st(local)]);
            }
            let here = code.len() as u16;
            let down = [cp(0), cp(1), load(1), arith(SUB), to(Id::HoldBeside)];
            code.extend([cp(1), jump_if(here + 3), jump(here + 8)]);
            code.extend(down);
            for local in 2..11 {
                code.push(mv(local));
                code.extend(BREAK);
            }
            code.push(ret());
            helper(vec![R, N], vec![C; 9], vec![], code)
        }
        Id::FillBeside => {
            let publish = [cp(2), load(1), pack(COIN), cp(2), move_to(COIN), cp(2), load(1), arith(ADD), st(2)];
            let count = [cp(1), load(1), arith(SUB), st(1), jump(0)];
            helper(vec![R, N, N], vec![], vec![], join(&[&[cp(1), jump_if(6)], &last, &publish, &count]))
        }
        _ => {
            let count = [cp(1), cp(0), write(), cp(1), load(1), arith(SUB), st(1), jump(0)];
            helper(vec![R, N], vec![], vec![], join(&[&[cp(1), jump_if(3), ret()], &count]))
        }
    }
}

/// Public procedures that have their work done by helpers.
fn helped(id: Id) -> ProcPlan {
    let slot = [cp(0), to(Id::Slot)];
    let keep = [cp(0), to(Id::Slot), st(1)];
    let break_stored = join(&[&[cp(0), move_from(COIN)], &BREAK]);
    match id {
        Id::HelpSet => bank(vec![N, N], vec![], vec![], join(&[&[mv(1)], &slot, &[write(), ret()]])),
        Id::HelpBump => bank(vec![N, N], vec![], vec![], join(&[&slot, &[mv(1), to(Id::Raise), ret()]])),
        Id::HelpTake => bank(vec![N, N], vec![], vec![], join(&[&[mv(1)], &slot, &[to(Id::Lower), ret()]])),
        Id::HelpSwap => {
            let both = [mv(0), to(Id::Slots), to(Id::Swap), st(2), st(1), cp(1), read(), st(3)];
            let turn = [cp(2), read(), mv(1), write(), mv(3), mv(2), write(), ret()];
            bank(vec![N], vec![R, R, N], vec![], join(&[&both, &turn]))
        }
        Id::HelpDeep => {
            let code = vec![mv(0), mv(1), to(Id::Slot), mv(2), to(Id::Sink), ret()];
            bank(vec![N, N, N], vec![], vec![], code)
        }
        Id::HelpEither => {
            let code = vec![mv(2), mv(0), mv(1), to(Id::Slots), to(Id::Even), to(Id::Hand), write(), ret()];
            bank(vec![N, N, N], vec![], vec![], code)
        }
        Id::HelpStale => {
            let code = join(&[&keep, &break_stored, &[load(1), mv(1), to(Id::Hand), to(Id::Lower), ret()]]);
            bank(vec![N], vec![R], vec![], code)
        }
        Id::HelpStaleReused => {
            let again = [load(70), load(71), pack(COIN), cp(0), move_to(COIN)];
            let code = join(&[&keep, &break_stored, &again, &[cp(1), to(Id::Hand), load(1), to(Id::Raise), ret()]]);
            bank(vec![N], vec![R], vec![], code)
        }
        Id::HelpStop => {
            let write_both = join(&[&[cp(1)], &slot, &[write()], &slot, &[mv(1), to(Id::Raise)]]);
            bank(vec![N, N, N], vec![], vec![], join(&[&write_both, &less_one(2), &[ret()]]))
        }
        Id::HelpDeepStop => {
            let deep = join(&[&[load(3)], &slot, &[mv(1), to(Id::Sink)]]);
            bank(vec![N, N, N], vec![], vec![], join(&[&deep, &[mv(2)], &slot, &[to(Id::Lower), ret()]]))
        }
        Id::HelpPublish => bank(vec![N, N], vec![], vec![], join(&[&slot, &[mv(1), to(Id::PublishBeside), ret()]])),
        Id::HelpWithdraw => bank(vec![N, N], vec![], vec![], join(&[&slot, &[mv(1), to(Id::WithdrawBeside), ret()]])),
        Id::HelpHold => {
            let code = vec![mv(1), to(Id::Slot), mv(0), to(Id::HoldBeside), ret()];
            bank(vec![N, N], vec![], vec![], code)
        }
        Id::HelpFill => bank(vec![N, N, N], vec![], vec![], join(&[&slot, &[mv(1), mv(2), to(Id::FillBeside), ret()]])),
        Id::HelpSpin => bank(vec![N, N], vec![], vec![], join(&[&slot, &[mv(1), to(Id::SpinBeside), ret()]])),
        Id::HelpShow => bank(vec![N], vec![], vec![N], join(&[&[load(1)], &slot, &[freeze(), to(Id::Label), ret()]])),
        Id::HelpFollow => {
            let box_up = [cp(0), move_from(COIN), load(8), pack(BOX), cp(0), move_to(BOX)];
            let write = [load(41), cp(1), to(Id::Hand), write()];
            let unbox = [cp(0), move_from(BOX), unpack(BOX), pop(), cp(0), move_to(COIN)];
            let code = join(&[&keep, &box_up, &write, &unbox, &[mv(1), to(Id::Hand), read(), ret()]]);
            bank(vec![N], vec![R], vec![N], code)
        }
        _ => {
            let code = vec![mv(0), cp(2), to(Id::HelpTake), mv(1), mv(2), to(Id::HelpBump), ret()];
            user(vec![N, N, N], vec![], vec![], code)
        }
    }
}

/// A table of some kit procedures and the number of each.
pub struct Kit {
    pub plan: Plan,
    ids: Vec<Id>,
}

impl Kit {
    /// The wanted procedures, those that they call, and a few more.
    pub fn new(rng: &mut Rng, wanted: &[Id]) -> Kit {
        let mut ids = wanted.to_vec();
        for _ in 0..rng.below(3) {
            ids.push(rng.pick(&ALL));
        }
        let mut at = 0;
        while at < ids.len() {
            for code in procedure(ids[at]).code.iter().filter(|code| code.op == op::CALL) {
                let callee = ALL[usize::from(code.b)];
                if !ids.contains(&callee) {
                    ids.push(callee);
                }
            }
            at += 1;
        }
        ids.sort_by_key(|&id| (procedure(id).module, id));
        ids.dedup();
        let mut kit = Kit { plan: modules(rng), ids };
        for &id in &kit.ids.clone() {
            let mut one = procedure(id);
            for code in one.code.iter_mut().filter(|code| code.op == op::CALL) {
                code.b = kit.number(ALL[usize::from(code.b)]);
            }
            kit.plan.add_proc(one);
        }
        kit
    }

    pub fn number(&self, id: Id) -> u16 {
        self.ids.iter().position(|&have| have == id).expect("the kit has the procedure") as u16
    }

    /// The procedures that a list can call, with their number of parameters.
    pub fn entries(&self) -> Vec<(Id, usize)> {
        let fits = |&id: &Id| {
            let one = procedure(id);
            let numbers = one.params.iter().chain(&one.results).all(|&sort| sort == N);
            (one.public && numbers).then_some((id, one.params.len()))
        };
        self.ids.iter().filter_map(fits).collect()
    }
}

fn modules(rng: &mut Rng) -> Plan {
    let trusted = rng.chance(80);
    let mut plan = Plan { trusted: vec![trusted, rng.chance(20)], ..Plan::default() };
    let guarded = trusted && rng.chance(80);
    plan.add_type(BANK, &[(N, guarded), (N, trusted && rng.chance(30))]);
    plan.add_type(BANK, &[(C, false), (N, false)]);
    plan.add_type(BANK, &[(Sort::Record(BOX as u8), false), (C, false)]);
    plan.add_type(BANK, &[]);
    plan.add_type(USER, &[(N, false)]);
    plan
}
