//! Calls for the differential tests, from the dice.

use super::states::{entry, fresh_state};
use super::worlds::World;
use super::*;
use second::boundary::{Second, ANSWER, STATE};
use second::dice::Dice;
use std::collections::VecDeque;

/// Draws calls one by one, with an eye on the state; some are the first of a
/// few that belong together.
pub struct Caller {
    planned: VecDeque<Call>,
}

impl Caller {
    pub fn new() -> Caller {
        Caller { planned: Default::default() }
    }

    pub fn next(&mut self, dice: &mut Dice, world: &World, state: View) -> Call {
        if self.planned.is_empty() {
            self.plan(dice, world, state);
        } else if dice.once_in(12) {
            return any_call(dice, world);
        }
        // Most requests come with nothing pending, or most would be refused 2.
        let asks = self.planned[0][0] == boundary::REQUEST;
        if asks && state.pending().0 != 0 && !dice.once_in(6) {
            return if dice.once_in(5) { write(ACKNOWLEDGE, 1) } else { drop_fault() };
        }
        self.planned.pop_front().expect("planned")
    }

    fn plan(&mut self, dice: &mut Dice, world: &World, state: View) {
        let plan = &mut self.planned;
        if state.pending().0 != 0 && !dice.once_in(4) {
            let address = state.pending().2;
            match dice.below(8) {
                0 => plan.push_back(drop_fault()),
                1 => plan.push_back(write(ACKNOWLEDGE, dice.word() as u16)),
                2 | 3 => plan.push_back(write(ACKNOWLEDGE, 1)),
                4 => plan.extend([read(STATUS), read(FAULT_HIGH), read(FAULT_LOW)]),
                5 => {
                    // The host changes something, then acknowledges.
                    plan.push_back(any_write(dice, world));
                    plan.push_back(write(ACKNOWLEDGE, 1));
                }
                _ => {
                    let kind = dice.below(4);
                    let cam = address >> 10 << 4 | 4 | kind;
                    let ram = dice_ram(dice);
                    load(plan, dice, cam, ram);
                    plan.push_back(write(ACKNOWLEDGE, 1));
                }
            }
            return;
        }
        let lost = !state.on() || !state.walking() || state.base() != world.tables;
        if lost && dice.once_in(4) {
            plan.push_back(write(BASE_HIGH, (world.tables >> 16) as u16));
            plan.push_back(write(BASE_LOW, world.tables as u16 | dice.below(128) as u16));
            let control = dice.pick(&[7, 7, 7, 0x27, 0xFFFF, 3, 5]);
            plan.push_back(write(CONTROL, control));
            return;
        }
        match dice.below(36) {
            // A run over many pages, so that all slots are filled and more.
            0 => {
                for _ in 0..20 + dice.below(30) {
                    plan.push_back(request(0, world.address(dice) & 0xFF_FFFF));
                }
            }
            1 | 2 => {
                let (cam, ram) = entry(dice, world);
                load(plan, dice, cam, ram);
            }
            3 => {
                let address = world.address(dice);
                plan.push_back(write(CAM_HIGH, (address >> 22) as u16));
                plan.push_back(write(CAM_LOW, (address >> 6) as u16));
                plan.push_back(write(ENTRY_FLUSH, dice.pick(&[1, 1, 0, 0xFFFF, 0xFFFE])));
            }
            4 => {
                let slot = dice_slot(dice);
                plan.push_back(write(CONTROL, 3));
                plan.push_back(write(LOCK, dice_slot(dice) << 10 | slot << 4));
                plan.push_back(write(LOAD, dice.pick(&[2, 2, 2, 0xFFFE, 3])));
                plan.extend([READ_CAM_HIGH, READ_CAM_LOW, READ_RAM_HIGH, READ_RAM_LOW].map(read));
                plan.push_back(write(CONTROL, 7));
            }
            5 => plan.extend((0..21).map(|n| read(4 * n))),
            6 | 7 => {
                let address = world.address(dice);
                plan.push_back(write(PREFETCH, (address >> 10) as u16 & 0x3FFF));
                plan.push_back(read(PREFETCH));
                plan.push_back(request(dice.below(2) as u8, address));
            }
            8 => {
                let lock = dice_slot(dice) << 10 | dice_slot(dice) << 4;
                plan.push_back(write(LOCK, lock | dice.below(16) as u16));
            }
            // One address twice: a walk, then a match.
            9..=18 => {
                let address = world.address(dice);
                plan.push_back(request(dice.below(2) as u8, address));
                let bits = dice.pick(&[10, 10, 12, 16]);
                let near = address ^ dice.below(1 << bits);
                plan.push_back(request(dice.below(2) as u8, near));
            }
            _ => plan.push_back(any_call(dice, world)),
        }
    }
}

fn dice_slot(dice: &mut Dice) -> u16 {
    match dice.below(6) {
        0 => 31,
        1 => 0,
        2 => 30,
        _ => dice.below(32) as u16,
    }
}

fn dice_ram(dice: &mut Dice) -> u32 {
    dice.word() & 0xFFFF_FC00 | dice.pick(&[0, 0x100, 0x200, 0x300, 0x300])
}

/// The writes that put an entry in a slot.
fn load(plan: &mut VecDeque<Call>, dice: &mut Dice, cam: u32, ram: u32) {
    let slot = dice_slot(dice);
    plan.push_back(write(CONTROL, dice.pick(&[3, 3, 3, 0x23, 1])));
    plan.push_back(write(CAM_HIGH, (cam >> 16) as u16));
    plan.push_back(write(CAM_LOW, cam as u16));
    plan.push_back(write(RAM_HIGH, (ram >> 16) as u16));
    plan.push_back(write(RAM_LOW, ram as u16));
    let lock_base = if dice.once_in(2) { 0 } else { dice_slot(dice) };
    plan.push_back(write(LOCK, lock_base << 10 | slot << 4));
    plan.push_back(write(LOAD, 1));
    if dice.once_in(2) {
        plan.push_back(write(LOCK, lock_base << 10 | dice_slot(dice) << 4));
    }
    plan.push_back(write(CONTROL, dice.pick(&[7, 7, 7, 0x27, 3])));
}

/// An offset: mostly a register's.
fn any_offset(dice: &mut Dice) -> u8 {
    match dice.below(10) {
        0 => dice.word() as u8,
        1 => dice.pick(&[0x54, 0x58, 0x51, 0x52, 1, 2, 3, 0x0A, 0x19, 0xFC]),
        _ => 4 * dice.below(21) as u8,
    }
}

fn any_write(dice: &mut Dice, world: &World) -> Call {
    let offset = any_offset(dice);
    let address = world.address(dice);
    let any = dice.word() as u16;
    let value = match offset {
        _ if dice.once_in(5) => any,
        PREFETCH => match dice.below(8) {
            0 => (address >> 10) as u16 | 0x4000,
            1 => (address >> 10) as u16 | 0x8000,
            _ => (address >> 10) as u16 & 0x3FFF,
        },
        // A reset now and then, not too often.
        CONTROL => dice.pick(&[7, 7, 7, 7, 7, 7, 0x27, 3, 3, 5, 1, any | 1, any | 1, 6]),
        BASE_HIGH => (world.tables >> 16) as u16,
        BASE_LOW => world.tables as u16 | dice.below(128) as u16,
        LOCK => dice_slot(dice) << 10 | dice_slot(dice) << 4,
        LOAD => dice.pick(&[0, 1, 1, 2, 2, 3, any & !3]),
        CAM_HIGH => (address >> 22) as u16,
        CAM_LOW => (address >> 6) as u16 & !3 | any & 0xF,
        GLOBAL_FLUSH | ENTRY_FLUSH | ACKNOWLEDGE => dice.pick(&[0, 1, 1, any]),
        _ => any,
    };
    write(offset, value)
}

/// A call of any kind.
pub fn any_call(dice: &mut Dice, world: &World) -> Call {
    match dice.below(20) {
        0..=9 => request(dice.below(2) as u8, world.address(dice)),
        10..=13 => any_write(dice, world),
        14..=16 => read(any_offset(dice)),
        17 => drop_fault(),
        _ => shift(world.address(dice)),
    }
}

/// Spoils a list so that it is not as said.
pub fn spoil_call(dice: &mut Dice, call: &mut Vec<u8>) {
    match dice.below(7) {
        0 => call[0] = dice.pick(&[0, 6, 7, 0x81, 0xFF]),
        1 => {
            call[0] = boundary::REQUEST;
            call[1] = dice.pick(&[2, 3, 0x80, 0xFF]);
        }
        2 => call[2] = dice.pick(&[1, 0x80]),
        3 => call[3] = dice.pick(&[1, 0x80]),
        4 => {
            call[0] = boundary::WRITE;
            call[10 + dice.below(2) as usize] = dice.pick(&[1, 0x80]);
        }
        5 => {
            call.pop();
        }
        _ => call.push(0),
    }
}

/// The state after a list of calls, by the second program.
pub fn state_after(lending: &Lending, calls: &[u8]) -> Vec<u8> {
    let answers = calls.len() / 12 * 16;
    let mut out = vec![0; answers + STATE];
    assert_eq!(Second.run(lending, calls, &mut out), out.len() as u64);
    out.split_off(answers)
}

/// So many calls, each drawn with an eye on the state before it.
pub fn session(dice: &mut Dice, world: &World, lending: &Lending, length: usize) -> Vec<u8> {
    let mut caller = Caller::new();
    let mut state: Vec<u8> = fresh_state().into();
    let mut calls = Vec::new();
    for _ in 0..length {
        let call = caller.next(dice, world, View(&state));
        let figures = (View(&state).total(), View(&state).misses());
        let mut out = [0; ANSWER + STATE];
        assert_eq!(Second.from(lending, &state, figures, &call, &mut out), out.len() as u64);
        state.copy_from_slice(&out[ANSWER..]);
        calls.extend(call);
    }
    calls
}
