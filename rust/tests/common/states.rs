//! States for the differential tests, from the dice.

use super::worlds::World;
use super::*;
use second::boundary::{METERS_AT, PENDING_AT, ROWS_AT, SLOTS_AT, STATE};
use second::dice::Dice;

/// The state of a fresh device, fresh meters and a fresh bill.
pub fn fresh_state() -> [u8; STATE] {
    let mut state = [0; STATE];
    state[ROWS_AT..].fill(0xFF);
    state
}

/// An entry in register form, mostly valid and about an address of the world.
pub fn entry(dice: &mut Dice, world: &World) -> (u32, u32) {
    let address = match dice.below(4) {
        0 => dice.word() & 0xFF_FFFF,
        _ => dice.pick(&world.hot),
    };
    let kind = dice.below(4);
    let mut tag = address >> 10;
    let mut ram = dice.word() & 0xFFFF_FF00;
    if dice.once_in(2) {
        // As a walk would leave it; else with bits below the page size.
        tag &= !(lists::SIZES[kind as usize] / 1_024 - 1);
        ram &= !(lists::SIZES[kind as usize] - 1) | 0x300;
    }
    if dice.once_in(2) {
        ram |= 0x300;
    }
    let valid = if dice.once_in(6) { 0 } else { 4 };
    let preserved = if dice.once_in(3) { 8 } else { 0 };
    (tag << 4 | preserved | valid | kind, ram)
}

fn put_entry(state: &mut [u8], at: usize, (cam, ram): (u32, u32)) {
    put_word(state, at, cam.rotate_left(16));
    put_word(state, at + 4, ram.rotate_left(16));
}

/// Changes one or more things of a state and leaves it in range.
pub fn stir(dice: &mut Dice, state: &mut [u8], world: &World) {
    for _ in 0..1 + dice.below(4) {
        match dice.below(12) {
            0 => {
                for _ in 0..1 + dice.below(32) {
                    let slot = dice.below(32) as usize;
                    put_entry(state, SLOTS_AT + 8 * slot, entry(dice, world));
                }
            }
            1 => put_half(state, 8, dice.below(32) as u16),
            2 => put_half(state, 10, dice.below(32) as u16),
            3 => {
                let control = dice.pick(&[0, 1, 2, 3, 4, 5, 6, 7, 7, 7, 0x20, 0x22, 0x27]);
                put_half(state, 2, control);
            }
            4 => {
                let status = dice.pick(&[0, 1, 2, 4, 8]);
                state[PENDING_AT] = status;
                // With nothing pending, access and address are not looked at.
                state[PENDING_AT + 1] = dice.below(2) as u8;
                let address = dice.pick(&world.hot);
                put_word(state, PENDING_AT + 4, address);
            }
            5 => state[PENDING_AT..PENDING_AT + 8].fill(0),
            6 => {
                let at = METERS_AT + 4 * dice.below(3) as usize;
                let meter = dice.pick(&[0, 1, u32::MAX, u32::MAX - 1, u32::MAX - 2, 0x7FFF_FFFF]);
                put_word(state, at, meter);
            }
            7 => {
                let at = ROWS_AT + 4 * dice.below(2) as usize;
                let row = match dice.below(5) {
                    0 => u32::MAX,
                    1 => 0,
                    2 => dice.word(),
                    _ => world.tables >> 10,
                };
                put_word(state, at, row);
            }
            8 => put_half(state, 0, dice.below(1 << 14) as u16),
            9 => put_entry(state, 12, entry(dice, world)),
            10 => put_entry(state, 20, entry(dice, world)),
            _ => {
                let base = if dice.once_in(4) { dice.word() & !127 } else { world.tables };
                put_word(state, 4, base);
            }
        }
    }
}

/// Puts one field out of its range.
pub fn break_range(dice: &mut Dice, state: &mut [u8]) {
    let slot = SLOTS_AT + 8 * dice.below(32) as usize;
    let cam_high = 4_u16 << dice.below(14);
    let ram_low = 1_u16 << dice.below(8);
    let turn = |state: &mut [u8], at: usize, bits: u16| {
        let turned = half(state, at) | bits;
        put_half(state, at, turned);
    };
    match dice.below(12) {
        0 => turn(state, 0, 0x4000 << dice.below(2)),
        1 => turn(state, 2, dice.pick(&[8, 0x10, 0x40, 0x80, 0x100, 0x8000])),
        2 => turn(state, 4, 1 << dice.below(7)),
        3 => put_half(state, 8, dice.pick(&[32, 33, 63, 64, 255, 256, 0x8000, 0xFFFF])),
        4 => put_half(state, 10, dice.pick(&[32, 33, 63, 64, 255, 256, 0x8000, 0xFFFF])),
        5 => turn(state, 12, cam_high),
        6 => turn(state, 18, ram_low),
        7 => turn(state, 20, cam_high),
        8 => turn(state, 26, ram_low),
        9 => turn(state, slot, cam_high),
        10 => turn(state, slot + 6, ram_low),
        _ => {
            if state[PENDING_AT] == 0 {
                state[PENDING_AT] = dice.pick(&[1, 2, 4, 8]);
            }
            state[PENDING_AT + 7] = dice.pick(&[1, 2, 0x80, 0xFF]);
        }
    }
}
