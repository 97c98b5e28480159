//! One call of the library beside one of the model: the result, every lent byte and the bytes on both
//! sides of the lent runs must agree. What comes back is the model's answer, which is the library's.

use crate::cases::Case;
use crate::lent::Lent;
use crate::library::{self, PRINT_BYTES};
use crate::model::plan::Plan;
use crate::model::{bus, cursor, picture, plan as planner, session as sessions};

/// A reply, and what the run that was lent for writing holds afterwards.
pub type Answer = (u32, Vec<u8>);

pub fn fresh(case: &mut Case, state: &[u8], chip: u8) -> Answer {
    on_a_state(case, state, chip, library::fresh, bus::fresh)
}

pub fn set_status(case: &mut Case, state: &[u8], byte: u8) -> Answer {
    on_a_state(case, state, byte, library::set_status, bus::set_status)
}

pub fn set_fifo(case: &mut Case, state: &[u8], byte: u8) -> Answer {
    on_a_state(case, state, byte, library::set_fifo, bus::set_fifo)
}

type OnState = fn(&mut [u8], u8) -> u32;

fn on_a_state(case: &mut Case, state: &[u8], byte: u8, library: OnState, model: OnState) -> Answer {
    let inputs: &[(&str, &[u8])] = &[("state", state), ("byte", &[byte])];
    let mut expected = state.to_vec();
    let reply = model(&mut expected, byte);
    let mut lent = Lent::new(&mut case.random, state);
    let given = library(lent.run(), byte);
    case.same("reply", given, reply, inputs);
    case.holds("state", &lent, &expected, inputs);
    (reply, expected)
}

pub fn write(case: &mut Case, state: &[u8], transaction: &[u8]) -> Answer {
    let inputs: &[(&str, &[u8])] = &[("state", state), ("transaction", transaction)];
    let mut expected = state.to_vec();
    let reply = bus::write(&mut expected, transaction);
    let mut lent = Lent::new(&mut case.random, state);
    let mut read_only = Lent::new(&mut case.random, transaction);
    let given = library::write(lent.run(), read_only.run());
    case.same("reply", given, reply, inputs);
    case.holds("state", &lent, &expected, inputs);
    case.stays("transaction", &read_only, inputs);
    (reply, expected)
}

/// The reply is the low byte of the result; the byte that was read stands above it.
pub fn read(case: &mut Case, state: &[u8], transaction: &[u8]) -> u32 {
    let inputs: &[(&str, &[u8])] = &[("state", state), ("transaction", transaction)];
    let result = bus::read(state, transaction);
    let mut lent = Lent::new(&mut case.random, state);
    let mut read_only = Lent::new(&mut case.random, transaction);
    let given = library::read(lent.run(), read_only.run());
    case.same("result", given, result, inputs);
    case.stays("state", &lent, inputs);
    case.stays("transaction", &read_only, inputs);
    result
}

pub fn check(case: &mut Case, request: &[u8], fields: &[u8]) -> Answer {
    let inputs: &[(&str, &[u8])] = &[("request", request), ("fields", fields)];
    let mut expected = fields.to_vec();
    let reply = picture::check(request, &mut expected);
    let mut lent = Lent::new(&mut case.random, fields);
    let mut read_only = Lent::new(&mut case.random, request);
    let given = library::check(read_only.run(), lent.run());
    case.same("reply", given, reply, inputs);
    case.holds("fields", &lent, &expected, inputs);
    case.stays("request", &read_only, inputs);
    (reply, expected)
}

pub fn write_picture(case: &mut Case, file: &[u8], request: &[u8]) -> Answer {
    let inputs: &[(&str, &[u8])] = &[("file", file), ("request", request)];
    let mut expected = file.to_vec();
    let reply = picture::write(&mut expected, request);
    let mut lent = Lent::new(&mut case.random, file);
    let mut read_only = Lent::new(&mut case.random, request);
    let given = library::write_picture(lent.run(), read_only.run());
    case.same("reply", given, reply, inputs);
    case.holds("file", &lent, &expected, inputs);
    case.stays("request", &read_only, inputs);
    (reply, expected)
}

pub fn read_picture(case: &mut Case, file: &[u8], request: &[u8]) -> Answer {
    let inputs: &[(&str, &[u8])] = &[("file", file), ("request", request)];
    let mut expected = request.to_vec();
    let reply = picture::read(file, &mut expected);
    let mut lent = Lent::new(&mut case.random, request);
    let mut read_only = Lent::new(&mut case.random, file);
    let given = library::read_picture(read_only.run(), lent.run());
    case.same("reply", given, reply, inputs);
    case.holds("request", &lent, &expected, inputs);
    case.stays("file", &read_only, inputs);
    (reply, expected)
}

pub fn plan(case: &mut Case, from: &[u8], to: &[u8], out: &[u8]) -> Plan {
    let inputs: &[(&str, &[u8])] = &[("from", from), ("to", to), ("out", out)];
    let plan = planner::plan(from, to, out.len());
    let mut expected = out.to_vec();
    expected[..plan.list.len()].copy_from_slice(&plan.list);
    let mut lent = Lent::new(&mut case.random, out);
    let mut first = Lent::new(&mut case.random, from);
    let mut second = Lent::new(&mut case.random, to);
    let given = library::plan(first.run(), second.run(), lent.run());
    case.same("result", given, plan.result(), inputs);
    case.holds("out", &lent, &expected, inputs);
    case.stays("from", &first, inputs);
    case.stays("to", &second, inputs);
    plan
}

/// What is printed; nothing where the buffer is too short.
pub fn session(case: &mut Case, session: &[u8], out: &[u8]) -> String {
    let inputs: &[(&str, &[u8])] = &[("session", session)];
    let mut lines = sessions::print(session);
    if out.len() < PRINT_BYTES {
        lines.clear();
    }
    let mut expected = out.to_vec();
    expected[..lines.len()].copy_from_slice(lines.as_bytes());
    let mut lent = Lent::new(&mut case.random, out);
    let mut read_only = Lent::new(&mut case.random, session);
    let given = library::session(read_only.run(), lent.run());
    case.same("printed bytes", given, lines.len(), inputs);
    case.holds("out", &lent, &expected, inputs);
    case.stays("session", &read_only, inputs);
    lines
}

pub fn cursor_row(case: &mut Case, map: &[u8], row: u32) -> usize {
    let inputs: &[(&str, &[u8])] = &[("map", map), ("row", &row.to_be_bytes())];
    let place = cursor::row(map.len(), row);
    let mut read_only = Lent::new(&mut case.random, map);
    let given = library::cursor_row(read_only.run(), row);
    case.same("place", given, place, inputs);
    case.stays("map", &read_only, inputs);
    place
}
