//! The stack machine. It runs accepted programs only; its state is changed in place.

use crate::arith::{Answer, Arith};
use crate::program::{Instr, Program, Sort};
use crate::row::limit;
use crate::stop::Stop;

/// Why an accepted program cannot meet the case.
const JUDGED: &str = "the operands pass accepted this instruction";

/// Identities of frames and records are given out once. A list has at most 256 calls of at most 65,535
/// instructions, so 32 bits are enough.
pub type Identity = u32;

#[derive(Clone, Copy, Debug, PartialEq, Eq)]
pub enum Value {
    Number(u64),
    /// The record in this room.
    Record(u8),
    Ref(Reference, Access),
}

/// Whether numbers may be written through a reference. Freeze changes nothing else about it.
#[derive(Clone, Copy, Debug, PartialEq, Eq)]
pub enum Access {
    Writable,
    ReadOnly,
}

#[derive(Clone, Copy, Debug, PartialEq, Eq)]
pub enum Reference {
    /// Local `local` of the frame `frame` at depth `depth`; `of` is the type of a record local.
    Local {
        depth: u8,
        local: u8,
        of: Option<u8>,
        frame: Identity,
    },
    /// A number field of the record `record` of type `of` in room `room`.
    Field {
        room: u8,
        of: u8,
        field: u8,
        record: Identity,
    },
    Record {
        room: u8,
        of: u8,
        record: Identity,
    },
}

#[derive(Clone, Debug, PartialEq, Eq)]
pub enum Outcome {
    Done(Vec<u64>),
    Stopped { stop: Stop, row: usize },
}

/// A place for one record. Record fields hold the nested record's room.
#[derive(Clone, Copy, Debug)]
struct Room {
    record: Option<Identity>,
    of: u8,
    fields: [u64; limit::FIELDS],
}

#[derive(Clone, Copy, Debug, PartialEq, Eq)]
pub struct Entry {
    pub of: u8,
    pub address: u64,
    /// How many entries had been made before it.
    pub made: u64,
    room: u8,
}

/// Everything that a stop restores.
#[derive(Clone, Debug, Default)]
struct Memory {
    rooms: Vec<Room>,
    free: Vec<u8>,
    /// In the order of type and address.
    store: Vec<Entry>,
}

#[derive(Clone, Debug)]
struct Frame {
    procedure: u8,
    /// The instruction that comes up, within `Program::code`.
    next: usize,
    identity: Identity,
    first_local: usize,
    first_operand: usize,
}

#[derive(Clone, Debug)]
pub struct Machine<'p> {
    program: &'p Program,
    memory: Memory,
    saved: Memory,
    frames: Vec<Frame>,
    locals: Vec<Option<Value>>,
    operands: Vec<Value>,
    frames_made: Identity,
    records_made: Identity,
    entries_made: u64,
}

/// Is shown the machine whenever an instruction has come up, also where the call then stops.
pub trait Watch {
    fn comes_up(&mut self, machine: &Machine);

    /// What an Op gives. Only wrong readings, which are run to compare their texts, say otherwise.
    #[inline]
    fn answer(&self, arith: Arith, first: u64, second: u64) -> Answer {
        arith.of(first, second)
    }
}

/// Watches nothing.
impl Watch for () {
    #[inline]
    fn comes_up(&mut self, _: &Machine) {}
}

enum Step {
    On,
    Finished,
}

impl<'p> Machine<'p> {
    pub fn new(program: &'p Program) -> Machine<'p> {
        Machine {
            program,
            memory: Memory::default(),
            saved: Memory::default(),
            frames: Vec::with_capacity(limit::FRAMES),
            locals: Vec::with_capacity(limit::FRAMES * limit::LOCALS),
            operands: Vec::with_capacity(limit::FRAMES * limit::OPERANDS),
            frames_made: 0,
            records_made: 0,
            entries_made: 0,
        }
    }

    /// Runs one call of a good list. Tells what came of it and how many instructions were done.
    pub fn call(&mut self, procedure: usize, arguments: &[u64], budget: u32) -> (Outcome, u32) {
        self.call_watched(procedure, arguments, budget, &mut ())
    }

    pub fn call_watched(
        &mut self,
        procedure: usize,
        arguments: &[u64],
        budget: u32,
        watch: &mut impl Watch,
    ) -> (Outcome, u32) {
        self.saved.clone_from(&self.memory);
        self.operands.extend(arguments.iter().map(|&number| Value::Number(number)));
        self.enter(procedure as u8);
        let mut done = 0;
        loop {
            watch.comes_up(self);
            let stop = if done == budget {
                Stop::Budget
            } else {
                match self.step(watch) {
                    Ok(Step::On) => {
                        done += 1;
                        continue;
                    }
                    Ok(Step::Finished) => return (Outcome::Done(self.take_results()), done + 1),
                    Err(stop) => stop,
                }
            };
            let row = self.row();
            self.restore();
            return (Outcome::Stopped { stop, row }, done);
        }
    }

    fn take_results(&mut self) -> Vec<u64> {
        let number = |value| match value {
            Value::Number(number) => number,
            _ => unreachable!("the list calls procedures of numbers only"),
        };
        self.operands.drain(..).map(number).collect()
    }

    /// After a stop: the store and its records of the call's start, no other record, no frame.
    fn restore(&mut self) {
        std::mem::swap(&mut self.memory, &mut self.saved);
        self.frames.clear();
        self.locals.clear();
        self.operands.clear();
    }

    fn frame(&self) -> &Frame {
        self.frames.last().expect("a call is running")
    }

    fn row(&self) -> usize {
        self.frame_row(self.frames.len() - 1)
    }

    /// Makes a frame whose parameters are the topmost operands.
    fn enter(&mut self, number: u8) {
        let procedure = self.program.procedure(number);
        let first_operand = self.operands.len() - procedure.params;
        let first_local = self.locals.len();
        self.locals.extend(self.operands.drain(first_operand..).map(Some));
        self.locals.resize(first_local + self.program.locals(procedure).len(), None);
        self.frames.push(Frame {
            procedure: number,
            next: procedure.code.start,
            identity: self.frames_made,
            first_local,
            first_operand,
        });
        self.frames_made += 1;
    }

    /// Ends the running frame; its operands are the results and become the caller's.
    fn leave(&mut self) -> Step {
        let frame = self.frames.pop().expect("a call is running");
        self.locals.truncate(frame.first_local);
        if self.frames.is_empty() {
            Step::Finished
        } else {
            Step::On
        }
    }

    /// Inlined always: the loop around it is compiled once for each `Watch`.
    #[inline(always)]
    fn step(&mut self, watch: &impl Watch) -> Result<Step, Stop> {
        let frame = self.frames.last_mut().expect("a call is running");
        let instr = self.program.code[frame.next];
        match instr {
            Instr::Ret => return Ok(self.leave()),
            Instr::Branch(to) => self.jump(to),
            Instr::BranchCond(to) => {
                if self.pop_number() != 0 {
                    self.jump(to);
                } else {
                    self.go_on();
                }
            }
            Instr::Call(callee) => {
                if self.frames.len() == limit::FRAMES {
                    return Err(Stop::Frames);
                }
                self.go_on();
                self.enter(callee);
            }
            _ => {
                self.work(instr, watch)?;
                self.go_on();
            }
        }
        Ok(Step::On)
    }

    fn go_on(&mut self) {
        self.frames.last_mut().expect("a call is running").next += 1;
    }

    fn jump(&mut self, to: u16) {
        let program = self.program;
        let frame = self.frames.last_mut().expect("a call is running");
        frame.next = program.procedure(frame.procedure).code.start + usize::from(to);
    }

    /// An instruction after which the next row comes up.
    #[inline(always)]
    fn work(&mut self, instr: Instr, watch: &impl Watch) -> Result<(), Stop> {
        match instr {
            Instr::Pop => {
                self.pop();
            }
            Instr::LoadConst(number) => self.operands.push(Value::Number(number)),
            Instr::MvLoc(local) => {
                let value = self.local(local).take().expect("the locals pass accepted");
                self.operands.push(value);
            }
            Instr::CpLoc(local) => {
                let value = self.local(local).expect("the locals pass accepted");
                self.operands.push(value);
            }
            Instr::StLoc(local) => *self.local(local) = Some(self.pop()),
            Instr::BorrowLoc(local) => self.borrow_local(local),
            Instr::ReadRef => {
                let number = *self.number_behind()?;
                self.operands.push(Value::Number(number));
            }
            Instr::WriteRef => {
                let below = self.operands.len() - 2;
                let Value::Number(number) = self.operands[below] else { unreachable!("{JUDGED}") };
                *self.number_behind()? = number;
                self.operands.pop();
            }
            Instr::BorrowFld { of, field } => self.borrow_field(of, field)?,
            Instr::Pack(of) => self.pack(of)?,
            Instr::Unpack(of) => self.unpack(of),
            Instr::MoveTo(of) => self.move_to(of)?,
            Instr::MoveFrom(of) => {
                let place = self.pop_key(of).map_err(|_| Stop::NoSuchKey)?;
                let entry = self.memory.store.remove(place);
                self.operands.push(Value::Record(entry.room));
            }
            Instr::BorrowGlobal(of) => {
                let place = self.pop_key(of).map_err(|_| Stop::NoSuchKey)?;
                self.push_record_ref(self.memory.store[place].room, Access::Writable);
            }
            Instr::Exists(of) => {
                let exists = self.pop_key(of).is_ok();
                self.operands.push(Value::Number(u64::from(exists)));
            }
            Instr::Op(arith) => self.operate(arith, watch)?,
            Instr::Freeze => match self.operands.last_mut() {
                Some(Value::Ref(_, access)) => *access = Access::ReadOnly,
                _ => unreachable!("{JUDGED}"),
            },
            Instr::Ret | Instr::Branch(_) | Instr::BranchCond(_) | Instr::Call(_) => unreachable!("done by step"),
        }
        Ok(())
    }

    fn pop(&mut self) -> Value {
        self.operands.pop().expect(JUDGED)
    }

    fn pop_number(&mut self) -> u64 {
        match self.pop() {
            Value::Number(number) => number,
            _ => unreachable!("{JUDGED}"),
        }
    }

    fn local(&mut self, local: u8) -> &mut Option<Value> {
        let first = self.frame().first_local;
        &mut self.locals[first + usize::from(local)]
    }

    fn borrow_local(&mut self, local: u8) {
        let frame = self.frame();
        let sorts = self.program.locals(self.program.procedure(frame.procedure));
        let of = match sorts[usize::from(local)] {
            Sort::Record(of) => Some(of),
            _ => None,
        };
        let depth = (self.frames.len() - 1) as u8;
        let reference = Reference::Local { depth, local, of, frame: frame.identity };
        self.operands.push(Value::Ref(reference, Access::Writable));
    }

    /// The local that a reference names, if its frame has not returned.
    fn named_local(&mut self, depth: u8, local: u8, identity: Identity) -> Result<&mut Option<Value>, Stop> {
        match self.frames.get(usize::from(depth)) {
            Some(frame) if frame.identity == identity => Ok(&mut self.locals[frame.first_local + usize::from(local)]),
            _ => Err(Stop::Stale),
        }
    }

    fn named_room(&mut self, room: u8, record: Identity) -> Result<&mut Room, Stop> {
        let room = &mut self.memory.rooms[usize::from(room)];
        if room.record == Some(record) {
            Ok(room)
        } else {
            Err(Stop::Stale)
        }
    }

    /// Takes a reference to a number and finds that number.
    fn number_behind(&mut self) -> Result<&mut u64, Stop> {
        match self.pop() {
            Value::Ref(Reference::Local { depth, local, frame, .. }, _) => {
                match self.named_local(depth, local, frame)? {
                    Some(Value::Number(number)) => Ok(number),
                    None => Err(Stop::Stale),
                    Some(_) => unreachable!("{JUDGED}"),
                }
            }
            Value::Ref(Reference::Field { room, field, record, .. }, _) => {
                Ok(&mut self.named_room(room, record)?.fields[usize::from(field)])
            }
            _ => unreachable!("{JUDGED}"),
        }
    }

    /// Takes a reference to a record and finds the room of that record; tells the reference's access too.
    fn room_behind(&mut self) -> Result<(u8, Access), Stop> {
        match self.pop() {
            Value::Ref(Reference::Local { depth, local, frame, .. }, access) => {
                match *self.named_local(depth, local, frame)? {
                    Some(Value::Record(room)) => Ok((room, access)),
                    None => Err(Stop::Stale),
                    Some(_) => unreachable!("{JUDGED}"),
                }
            }
            Value::Ref(Reference::Record { room, record, .. }, access) => {
                self.named_room(room, record).map(|_| (room, access))
            }
            _ => unreachable!("{JUDGED}"),
        }
    }

    fn push_record_ref(&mut self, room: u8, access: Access) {
        let Room { record, of, .. } = self.memory.rooms[usize::from(room)];
        let record = record.expect("the room holds a record");
        self.operands.push(Value::Ref(Reference::Record { room, of, record }, access));
    }

    /// What is borrowed through a read-only reference is read-only.
    fn borrow_field(&mut self, of: u8, field: u8) -> Result<(), Stop> {
        let (room, access) = self.room_behind()?;
        let inside = &self.memory.rooms[usize::from(room)];
        if self.program.fields(of)[usize::from(field)].sort.is_record() {
            self.push_record_ref(inside.fields[usize::from(field)] as u8, access);
        } else {
            let record = inside.record.expect("the room holds a record");
            self.operands.push(Value::Ref(Reference::Field { room, of, field, record }, access));
        }
        Ok(())
    }

    fn pack(&mut self, of: u8) -> Result<(), Stop> {
        let memory = &mut self.memory;
        if memory.rooms.len() - memory.free.len() == limit::RECORDS {
            return Err(Stop::Records);
        }
        let first = self.operands.len() - self.program.fields(of).len();
        let mut record = Room { record: Some(self.records_made), of, fields: [0; limit::FIELDS] };
        for (field, value) in record.fields.iter_mut().zip(self.operands.drain(first..)) {
            *field = match value {
                Value::Number(number) => number,
                Value::Record(room) => u64::from(room),
                Value::Ref(..) => unreachable!("{JUDGED}"),
            };
        }
        self.records_made += 1;
        let room = match memory.free.pop() {
            Some(room) => {
                memory.rooms[usize::from(room)] = record;
                room
            }
            None => {
                memory.rooms.push(record);
                (memory.rooms.len() - 1) as u8
            }
        };
        self.operands.push(Value::Record(room));
        Ok(())
    }

    fn unpack(&mut self, of: u8) {
        let Value::Record(number) = self.pop() else { unreachable!("{JUDGED}") };
        let room = &mut self.memory.rooms[usize::from(number)];
        room.record = None;
        self.memory.free.push(number);
        for (field, &inside) in self.program.fields(of).iter().zip(&room.fields) {
            self.operands.push(if field.sort.is_record() {
                Value::Record(inside as u8)
            } else {
                Value::Number(inside)
            });
        }
    }

    /// Takes an address: where the store has that key, or where the key would stand.
    fn pop_key(&mut self, of: u8) -> Result<usize, usize> {
        let address = self.pop_number();
        self.memory.store.binary_search_by_key(&(of, address), |entry| (entry.of, entry.address))
    }

    fn move_to(&mut self, of: u8) -> Result<(), Stop> {
        let Some(&Value::Number(address)) = self.operands.last() else { unreachable!("{JUDGED}") };
        let Err(place) = self.pop_key(of) else { return Err(Stop::KeyTaken) };
        if self.memory.store.len() == limit::ENTRIES {
            return Err(Stop::Entries);
        }
        let Value::Record(room) = self.pop() else { unreachable!("{JUDGED}") };
        let made = self.entries_made;
        self.entries_made += 1;
        self.memory.store.insert(place, Entry { of, address, made, room });
        Ok(())
    }

    fn operate(&mut self, arith: Arith, watch: &impl Watch) -> Result<(), Stop> {
        let second = self.pop_number();
        let first = self.pop_number();
        let number = watch.answer(arith, first, second).or_stop()?;
        self.operands.push(Value::Number(number));
        Ok(())
    }
}

/// What a watcher and the text see of the machine.
impl Machine<'_> {
    pub fn program(&self) -> &Program {
        self.program
    }

    /// The store in the order of type and address.
    pub fn store(&self) -> &[Entry] {
        &self.memory.store
    }

    /// Type and field values of the record that is this entry.
    pub fn entry_fields(&self, entry: &Entry) -> (u8, &[u64]) {
        self.record_fields(entry.room)
    }

    /// Type and field values of the record in a room. A record field's value is the nested record's room.
    pub fn record_fields(&self, room: u8) -> (u8, &[u64]) {
        let inside = &self.memory.rooms[usize::from(room)];
        (inside.of, &inside.fields[..self.program.fields(inside.of).len()])
    }

    pub fn live_records(&self) -> usize {
        self.memory.rooms.len() - self.memory.free.len()
    }

    /// The rooms that hold a record, with its identity.
    pub fn live_rooms(&self) -> impl Iterator<Item = (u8, Identity)> + '_ {
        (0..).zip(&self.memory.rooms).filter_map(|(number, room)| Some((number, room.record?)))
    }

    /// Identity of the record in a room that holds one.
    pub fn record_identity(&self, room: u8) -> Identity {
        self.memory.rooms[usize::from(room)].record.expect("the room holds a record")
    }

    /// Identity of the record that is this entry.
    pub fn entry_record(&self, entry: &Entry) -> Identity {
        self.record_identity(entry.room)
    }

    pub fn frame_count(&self) -> usize {
        self.frames.len()
    }

    /// The instruction that comes up in the running frame.
    pub fn upcoming(&self) -> Instr {
        self.program.code[self.frame().next]
    }

    /// The Op that comes up, if it is one, with its two numbers.
    pub fn upcoming_op(&self) -> Option<(Arith, u64, u64)> {
        match (self.upcoming(), &self.operands[..]) {
            (Instr::Op(arith), [.., Value::Number(first), Value::Number(second)]) => Some((arith, *first, *second)),
            _ => None,
        }
    }

    /// Number of the frame's procedure.
    pub fn frame_procedure(&self, depth: usize) -> u8 {
        self.frames[depth].procedure
    }

    pub fn frame_identity(&self, depth: usize) -> Identity {
        self.frames[depth].identity
    }

    /// Row of the instruction that comes up in the frame, where it runs or runs again.
    pub fn frame_row(&self, depth: usize) -> usize {
        let frame = &self.frames[depth];
        let procedure = self.program.procedure(frame.procedure);
        procedure.code_row + (frame.next - procedure.code.start)
    }

    pub fn frame_operands(&self, depth: usize) -> &[Value] {
        let end = self.frames.get(depth + 1).map_or(self.operands.len(), |above| above.first_operand);
        &self.operands[self.frames[depth].first_operand..end]
    }

    pub fn frame_locals(&self, depth: usize) -> &[Option<Value>] {
        let end = self.frames.get(depth + 1).map_or(self.locals.len(), |above| above.first_local);
        &self.locals[self.frames[depth].first_local..end]
    }

    /// Sort and type of a value, for references also where they are stale.
    pub fn sort_of(&self, value: Value) -> Sort {
        match value {
            Value::Number(_) => Sort::Number,
            Value::Record(room) => Sort::Record(self.memory.rooms[usize::from(room)].of),
            Value::Ref(reference, access) => {
                let writable = match reference {
                    Reference::Local { of: None, .. } | Reference::Field { .. } => Sort::NumberRef,
                    Reference::Local { of: Some(of), .. } | Reference::Record { of, .. } => Sort::RecordRef(of),
                };
                match access {
                    Access::Writable => writable,
                    Access::ReadOnly => writable.frozen().expect("a reference can be frozen"),
                }
            }
        }
    }
}
