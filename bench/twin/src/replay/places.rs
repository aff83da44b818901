//! A thread at a place, and the events of a place.

use super::out::Out;
use super::requests::{Ask, Request};
use super::system::{Done, System};

pub const DEPTH: usize = 256;
const INTERPRETED: u16 = u16::MAX;

/// The states, those of one way back beside each other.
#[derive(Clone, Copy, PartialEq)]
pub enum State {
    New,
    InJava,
    InVm,
    NativeToJava,
    NativeToVm,
    Blocked,
    NewTrans,
    TransToJava,
    TransToVm,
    BlockedTrans,
    StoppedInJava,
    StoppedInVm,
    ServingInJava,
    ServingInVm,
}

use State::*;

impl State {
    pub fn text(self) -> &'static str {
        match self {
            New => "New",
            InJava => "InJava",
            InVm => "InVm",
            NativeToJava => "InNative(Java)",
            NativeToVm => "InNative(Vm)",
            Blocked => "Blocked",
            NewTrans => "NewTrans",
            TransToJava => "NativeTrans(Java)",
            TransToVm => "NativeTrans(Vm)",
            BlockedTrans => "BlockedTrans",
            StoppedInJava => "AtPoll(Java)",
            StoppedInVm => "AtPoll(Vm)",
            ServingInJava => "Serving(Java)",
            ServingInVm => "Serving(Vm)",
        }
    }

    pub fn is_safe(self) -> bool {
        matches!(self, New | NativeToJava | NativeToVm | Blocked | StoppedInJava | StoppedInVm)
    }

    pub fn is_serving(self) -> bool {
        matches!(self, ServingInJava | ServingInVm)
    }
}

#[derive(Clone, Copy)]
pub enum Act {
    Begin,
    Change,
    End,
    Wake,
    Cross,
    Leave,
    Edge,
    ToVm,
    FromVm,
    ToNative,
    Block,
    Exit,
    Take,
    Finish,
    Clear,
    Hold,
    Release,
    Stack,
    Enter(u64, Option<u64>),
}

#[derive(Clone, Copy)]
pub struct Frame {
    method: u16,
    slot: u16,
    serial: u64,
}

/// How many frames of a slot's code the stack has more than were shown, and whether the slot is in the list of those touched.
#[derive(Clone, Copy, Default)]
struct Net {
    serial: u64,
    by: i16,
    is_listed: bool,
}

pub struct Thread {
    pub name: u64,
    pub state: State,
    pub published: bool,
    pub publishing: bool,
    /// The greatest operation that was told and isn't cleared, or 0.
    pub armed: u64,
    begun: u64,
    pub stored: u64,
    depth: usize,
    pub unsettled: u32,
    frames: Box<[Frame; DEPTH]>,
    nets: Box<[Net]>,
    touched: Vec<u16>,
    /// The changes of the open publication, by rising serial, once one was asked for, and how many were told.
    changes: Vec<(u64, u16, i16)>,
    are_listed: bool,
    at: usize,
}

impl Thread {
    pub fn new(slots: usize) -> Thread {
        Thread {
            name: 0,
            state: New,
            published: false,
            publishing: false,
            armed: 0,
            begun: 0,
            stored: 0,
            depth: 0,
            unsettled: 0,
            frames: Box::new([Frame { method: 0, slot: 0, serial: 0 }; DEPTH]),
            nets: vec![Net::default(); slots].into(),
            touched: Vec::with_capacity(slots),
            changes: Vec::with_capacity(DEPTH),
            are_listed: false,
            at: 0,
        }
    }

    /// A thread that left is settled, and its stack is empty.
    pub fn begin_anew(&mut self, name: u64) {
        (self.name, self.state, self.published, self.publishing) = (name, New, false, false);
        (self.armed, self.begun, self.stored) = (0, 0, 0);
    }

    fn change_net(&mut self, slot: u16, serial: u64, by: i16) {
        let net = &mut self.nets[slot as usize];
        if net.by == 0 {
            self.unsettled += 1;
            net.serial = serial;
            if !std::mem::replace(&mut net.is_listed, true) {
                self.touched.push(slot);
            }
        }
        net.by += by;
        self.unsettled -= u32::from(net.by == 0);
    }

    fn list_changes(&mut self) {
        (self.are_listed, self.at) = (true, 0);
        self.changes.clear();
        for slot in self.touched.drain(..) {
            let net = &mut self.nets[slot as usize];
            net.is_listed = false;
            if net.by != 0 {
                self.changes.push((net.serial, slot, net.by));
            }
        }
        if self.changes.len() > 1 {
            self.changes.sort_unstable();
        }
    }

    fn next_change(&mut self) -> Option<(u64, u16, i16)> {
        if !self.are_listed {
            self.list_changes();
        }
        let change = *self.changes.get(self.at)?;
        self.at += 1;
        self.nets[change.1 as usize].by = 0;
        self.unsettled -= 1;
        Some(change)
    }

    fn push(&mut self, frame: Frame) {
        self.frames[self.depth] = frame;
        self.depth += 1;
    }

    fn frame_refusal(&self) -> Done {
        if !self.published {
            Err("Unpublished")
        } else if self.depth == DEPTH {
            Err("DepthFull")
        } else {
            Ok(())
        }
    }

    fn poll(&mut self, goes: State, stops: State, out: &mut Out) {
        if self.armed == 0 {
            self.state = goes;
            out.text(b"go\n");
        } else {
            self.state = stops;
            out.counted_line(b"stop ", self.armed);
        }
    }

    fn moves(&mut self, state: State, out: &mut Out) -> Done {
        self.state = state;
        out.text(b"ok\n");
        Ok(())
    }

    fn reply(&self, ask: Ask) -> u64 {
        let frames = &self.frames[..self.depth];
        match ask {
            Ask::Depth => frames.len() as u64,
            Ask::Top => frames.last().map_or(0, |frame| frame.serial),
            Ask::CountOf(serial) => frames.iter().filter(|frame| frame.serial == serial && frame.slot != INTERPRETED).count() as u64,
        }
    }

    fn put_stack(&self, out: &mut Out) {
        out.text(b"stack");
        for frame in &self.frames[..self.depth] {
            out.counted(b" ", u64::from(frame.method));
            if frame.slot == INTERPRETED {
                out.text(b":i");
            } else {
                out.counted(b":", frame.serial);
            }
        }
        out.end_line();
    }
}

fn illegal(state: State, out: &mut Out) -> Done {
    out.text(b"refused Illegal ");
    out.text(state.text().as_bytes());
    out.end_line();
    Ok(())
}

impl System {
    #[inline]
    pub fn act(&mut self, place: u64, act: Act, out: &mut Out) -> Done {
        let place = place as usize;
        let is_held = place < self.threads.len() && self.is_held(place);
        let Some(thread) = self.threads.get_mut(place) else {
            return Err("NoSuchPlace");
        };
        let Some(thread) = thread.as_deref_mut() else {
            out.text(b"refused Illegal Vacant\n");
            return Ok(());
        };
        if thread.publishing && !matches!(act, Act::Change | Act::End | Act::Stack) {
            return Err("Publishing");
        }
        match (act, thread.state) {
            (Act::Begin, state) => self.begin(place, state, out),
            (Act::Change, _) => self.change(place, out),
            (Act::End, _) => self.end(place, out),
            (Act::Wake, state) => self.wake(place, state, out),
            (Act::Edge | Act::FromVm | Act::Cross, state) => self.cross(place, act, state, out),
            (Act::Enter(method, code), InJava) => self.enter(place, method, code, out),
            (Act::Leave, InJava) => self.leave(place, out),
            (Act::ToVm, InJava) => thread.moves(InVm, out),
            (Act::ToNative, InJava) => thread.moves(NativeToJava, out),
            (Act::ToNative, InVm) => thread.moves(NativeToVm, out),
            (Act::Block, InVm) => thread.moves(Blocked, out),
            (Act::Exit, InJava | InVm) => self.exit(place, out),
            (Act::Take, StoppedInJava | StoppedInVm) => self.take(place, out),
            (Act::Finish, state) if is_held || state.is_serving() => self.finish(place, out),
            (Act::Clear, state) if is_held || state.is_serving() => self.clear(place, out),
            (Act::Hold, state) => self.hold(place, state, out),
            (Act::Release, _) => self.release(place, out),
            (Act::Stack, _) => {
                thread.put_stack(out);
                Ok(())
            }
            (_, state) => illegal(state, out),
        }
    }

    #[inline(always)]
    fn thread(&mut self, place: usize) -> &mut Thread {
        self.threads[place].as_deref_mut().unwrap()
    }

    fn begin(&mut self, place: usize, state: State, out: &mut Out) -> Done {
        if !self.is_held(place) && !matches!(state, New | InJava | InVm | ServingInJava | ServingInVm) {
            return illegal(state, out);
        }
        let moment = self.moment;
        let thread = self.thread(place);
        (thread.publishing, thread.begun, thread.are_listed) = (true, moment, false);
        out.text(b"ok\n");
        Ok(())
    }

    fn change(&mut self, place: usize, out: &mut Out) -> Done {
        let thread = self.thread(place);
        if !thread.publishing {
            return Err("NotBegun");
        }
        let Some((serial, slot, by)) = thread.next_change() else {
            out.text(b"change none\n");
            return Ok(());
        };
        out.counted(b"change ", serial);
        out.counted_line(if by > 0 { b" +" } else { b" -" }, u64::from(by.unsigned_abs()));
        self.codes.change_count(slot, by);
        Ok(())
    }

    fn end(&mut self, place: usize, out: &mut Out) -> Done {
        let thread = self.thread(place);
        if !thread.publishing {
            return Err("NotBegun");
        }
        if thread.unsettled != 0 {
            return Err("ChangesLeft");
        }
        (thread.publishing, thread.published, thread.stored) = (false, true, thread.begun);
        out.text(b"ok\n");
        Ok(())
    }

    fn wake(&mut self, place: usize, state: State, out: &mut Out) -> Done {
        let to = match state {
            New => NewTrans,
            NativeToJava => TransToJava,
            NativeToVm => TransToVm,
            Blocked => BlockedTrans,
            _ => return illegal(state, out),
        };
        if self.is_held(place) {
            return Err("Held");
        }
        self.thread(place).moves(to, out)
    }

    fn cross(&mut self, place: usize, act: Act, state: State, out: &mut Out) -> Done {
        let (goes, stops) = match (act, state) {
            (Act::Edge, InJava) | (Act::FromVm, InVm) => (InJava, StoppedInJava),
            (Act::Cross, NewTrans | TransToJava | ServingInJava) => (InJava, StoppedInJava),
            (Act::Cross, TransToVm | ServingInVm | BlockedTrans) => (InVm, StoppedInVm),
            _ => return illegal(state, out),
        };
        self.thread(place).poll(goes, stops, out);
        Ok(())
    }

    fn enter(&mut self, place: usize, method: u64, code: Option<u64>, out: &mut Out) -> Done {
        let current = *self.codes.current.get(method as usize).ok_or("NoSuchMethod")?;
        let mut frame = Frame { method: method as u16, slot: INTERPRETED, serial: 0 };
        if let Some(serial) = code {
            if !self.codes.was_given(serial) {
                return Err("Unknown");
            }
            self.thread(place).frame_refusal()?;
            let slot = self.codes.slot(serial);
            if current != serial {
                return self.enter_other(serial, out);
            }
            (frame.slot, frame.serial) = (slot.unwrap(), serial);
            self.thread(place).change_net(frame.slot, serial, 1);
        } else {
            self.thread(place).frame_refusal()?;
        }
        self.thread(place).push(frame);
        out.text(b"entered\n");
        Ok(())
    }

    /// Of code that isn't the method's in use.
    fn enter_other(&self, serial: u64, out: &mut Out) -> Done {
        if self.codes.get(serial).is_ok_and(|code| code.state == super::codes::State::InUse) {
            return Err("NotOf");
        }
        out.text(b"wrong method\n");
        Ok(())
    }

    fn leave(&mut self, place: usize, out: &mut Out) -> Done {
        let thread = self.thread(place);
        if thread.depth == 0 {
            return Err("EmptyStack");
        }
        thread.depth -= 1;
        let frame = thread.frames[thread.depth];
        if frame.slot != INTERPRETED {
            thread.change_net(frame.slot, frame.serial, -1);
        }
        thread.poll(InJava, StoppedInJava, out);
        Ok(())
    }

    fn exit(&mut self, place: usize, out: &mut Out) -> Done {
        let thread = self.thread(place);
        if thread.depth != 0 {
            return Err("StackNotEmpty");
        }
        if thread.unsettled != 0 {
            return Err("Unpublished");
        }
        if thread.armed != 0 {
            return Err("OperationPending");
        }
        out.counted_line(b"exited ", thread.name);
        self.vacate(place);
        Ok(())
    }

    fn take(&mut self, place: usize, out: &mut Out) -> Done {
        if self.is_held(place) {
            return Err("Held");
        }
        if self.requests.opens.iter().any(|open| open.awaits_census(1 << place)) {
            return Err("NotDone");
        }
        let thread = self.thread(place);
        let to = if thread.state == StoppedInJava { ServingInJava } else { ServingInVm };
        thread.moves(to, out)
    }

    fn finish(&mut self, place: usize, out: &mut Out) -> Done {
        let bit = 1 << place;
        let thread = self.threads[place].as_deref().unwrap();
        let Some(open) = self.requests.opens.iter_mut().find(|open| open.is_told(bit) && !open.is_done(bit)) else {
            return Err(self.requests.idle_refusal(bit, |request| request.lists(thread.name)));
        };
        let Request::Handshake(_, ask) = open.request else {
            return Err("NotOf");
        };
        if thread.unsettled != 0 {
            return Err("Unpublished");
        }
        open.set_done(bit);
        out.counted_line(b"reply ", thread.reply(ask));
        Ok(())
    }

    fn clear(&mut self, place: usize, out: &mut Out) -> Done {
        let bit = 1 << place;
        let thread = self.threads[place].as_deref_mut().unwrap();
        let Some(open) = self.requests.opens.iter_mut().find(|open| open.is_told(bit) && !open.is_cleared(bit)) else {
            return Err(self.requests.idle_refusal(bit, |request| request.is_target(thread.name)));
        };
        if !open.is_done(bit) {
            return Err("NotDone");
        }
        open.set_cleared(bit);
        if thread.armed == open.number {
            thread.armed = 0;
        }
        out.text(b"ok\n");
        Ok(())
    }

    fn hold(&mut self, place: usize, state: State, out: &mut Out) -> Done {
        let bit = 1 << place;
        if !self.requests.opens.iter().any(|open| open.is_told(bit) && !open.is_cleared(bit)) {
            let name = self.thread(place).name;
            return Err(self.requests.idle_refusal(bit, |request| request.is_target(name)));
        }
        if self.is_held(place) {
            return Err("Held");
        }
        if !state.is_safe() {
            return Err("NotSafe");
        }
        self.held |= bit;
        out.text(b"ok\n");
        Ok(())
    }

    fn release(&mut self, place: usize, out: &mut Out) -> Done {
        if !self.is_held(place) {
            return Err("NotHeld");
        }
        self.held &= !(1 << place);
        out.text(b"ok\n");
        Ok(())
    }
}
