//! That the sizes which bench/module read off the module are right. It is looked at before anything else is called: on
//! a state that does not stand where it should, our functions may do anything.

use crate::frames::{Call, CREATE, PLAN, SYSTEM_TICKS_US, TICK};
use crate::module::{self, Room, ANSWER, CALL, CALL_OPTION, REPLY, STATE};
use crate::step::{Frame, Host};
use crate::Wrong;

/// What slot 0 has for its tid. A state begins with it.
const TID: u32 = 0x1234_5678;

/// Looks at what an image and some frames are read as, and at a reply. Calls of two kinds differ in their first byte.
pub fn check() -> Result<(), Wrong> {
    let mut host = Host::new()?;
    host.answered(&Frame::of(&Call::new(CREATE, &[u64::from(TID), 0, 0, 0, 0])));
    let mut state = Room::for_bytes(STATE);
    // SAFETY: there is room for far more than is given, and the host's image is accepted.
    unsafe { module::state_at(state.address(), host.image.as_ptr()) };
    ends("STATE", STATE, &state)?;
    begins("STATE", 0, &state)?;

    let kinds = [(CREATE, &[1, 2, 3, 4, u64::MAX][..]), (TICK, &[5, 6]), (PLAN, &[5, 6]), (SYSTEM_TICKS_US, &[])];
    let mut calls = kinds.map(|(number, arguments)| call(&Call::new(number, arguments)));
    ends("CALL_OPTION", CALL_OPTION, &calls[0])?;
    let told = calls.each_ref().map(|call| call.from(CALL_OPTION - CALL)[0]);
    if !(0..told.len()).all(|place| !told[..place].contains(&told[place])) {
        return Err(wrong("CALL_OPTION less CALL", &format!("no call begins at {}", CALL_OPTION - CALL)));
    }

    let mut reply = Room::for_bytes(REPLY);
    // SAFETY: there is room for far more than is given, and state and call stand where they were looked for.
    unsafe {
        module::apply(reply.address(), state.address(), calls[3].address().add(CALL_OPTION - CALL));
    }
    ends("REPLY", REPLY, &reply)?;
    begins("ANSWER", ANSWER, &reply)
}

fn call(call: &Call) -> Room {
    let mut option = Room::for_bytes(CALL_OPTION);
    let frame = Frame::of(call);
    // SAFETY: there is room for far more than is given.
    unsafe { module::read_frame(option.address(), frame.bytes().as_ptr(), frame.bytes().len()) };
    option
}

/// Values that are looked at here end with microseconds or with a create's rsp0, which are no mark.
fn ends(name: &str, bytes: usize, room: &Room) -> Result<(), Wrong> {
    match room.extent() {
        extent if extent == bytes => Ok(()),
        extent => Err(wrong(name, &format!("{extent} bytes were written and not {bytes}"))),
    }
}

fn begins(name: &str, place: usize, room: &Room) -> Result<(), Wrong> {
    match room.from(place).starts_with(&TID.to_ne_bytes()) {
        true => Ok(()),
        false => Err(wrong(name, &format!("no state begins at {place}"))),
    }
}

fn wrong(name: &str, what: &str) -> Wrong {
    Wrong::Failed(format!("{name} is wrong in target/bench/layout.rs, which bench/module writes: {what}"))
}
