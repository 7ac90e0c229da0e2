//! The tags outside the frame buffer group: facts, power, clocks, voltages, temperature,
//! and those for memory handles, which are handed on.

use crate::memory::{self, ALLOCATE_MEMORY, LOCK_MEMORY, RELEASE_MEMORY, UNLOCK_MEMORY};
use crate::record::{Board, Clock, Device, Span, Temperature, Voltage};
use crate::walk::word;

pub const FIRMWARE: u32 = 0x0000_0001;
pub const MODEL: u32 = 0x0001_0001;
pub const REVISION: u32 = 0x0001_0002;
pub const MAC: u32 = 0x0001_0003;
pub const SERIAL: u32 = 0x0001_0004;
pub const ARM_MEMORY: u32 = 0x0001_0005;
pub const VC_MEMORY: u32 = 0x0001_0006;
pub const COMMAND_LINE: u32 = 0x0005_0001;
pub const DMA_MASK: u32 = 0x0006_0001;

pub const POWER_STATE: u32 = 0x0002_0001;
pub const POWER_TIMING: u32 = 0x0002_0002;
pub const SET_POWER: u32 = 0x0002_8001;

pub const CLOCK_STATE: u32 = 0x0003_0001;
pub const SET_CLOCK_STATE: u32 = 0x0003_8001;
pub const CLOCK_RATE: u32 = 0x0003_0002;
pub const CLOCK_MAX: u32 = 0x0003_0004;
pub const CLOCK_MIN: u32 = 0x0003_0007;
pub const SET_CLOCK_RATE: u32 = 0x0003_8002;

pub const VOLTAGE: u32 = 0x0003_0003;
pub const SET_VOLTAGE: u32 = 0x0003_8003;
pub const VOLTAGE_MAX: u32 = 0x0003_0005;
pub const VOLTAGE_MIN: u32 = 0x0003_0008;

pub const TEMPERATURE: u32 = 0x0003_0006;
pub const TEMPERATURE_MAX: u32 = 0x0003_000A;

/// The state of what is absent.
const ABSENT: u32 = 2;
const INVALID_VOLTAGE: u32 = 0x8000_0000;
/// A voltage offset counts steps from here, both in millivolts.
const VOLTAGE_ORIGIN: i32 = 1_200;
const VOLTAGE_STEP: i32 = 25;

/// The request length of a tag outside the frame buffer group, where the id is one's.
pub fn request_length(id: u32) -> Option<u32> {
    match id {
        FIRMWARE | MODEL | REVISION | MAC | SERIAL | ARM_MEMORY | VC_MEMORY | COMMAND_LINE
        | DMA_MASK => Some(0),
        POWER_STATE | POWER_TIMING | CLOCK_STATE | CLOCK_RATE | CLOCK_MAX | CLOCK_MIN | VOLTAGE
        | VOLTAGE_MAX | VOLTAGE_MIN | TEMPERATURE | TEMPERATURE_MAX => Some(4),
        SET_POWER | SET_CLOCK_STATE | SET_CLOCK_RATE | SET_VOLTAGE => Some(8),
        _ => memory::request_length(id),
    }
}

/// Carries out a tag outside the group: reads the request from the value, changes the board, stores
/// the answer. Gives the answer's length.
pub fn carry_out(board: &mut Board, id: u32, value: &mut [u8]) -> u32 {
    let facts = &board.facts;
    let number = match id {
        FIRMWARE => return store(value, &facts.firmware.to_le_bytes()),
        MODEL => return store(value, &facts.model.to_le_bytes()),
        REVISION => return store(value, &facts.revision.to_le_bytes()),
        MAC => return store(value, &facts.mac),
        SERIAL => return store(value, &facts.serial.to_le_bytes()),
        ARM_MEMORY => return store_span(value, facts.arm),
        VC_MEMORY => return store_span(value, facts.vc),
        COMMAND_LINE => return store(value, &board.line[..facts.characters as usize]),
        DMA_MASK => return store(value, &facts.dma.to_le_bytes()),
        POWER_STATE | POWER_TIMING | SET_POWER => power(&mut board.devices, id, value),
        VOLTAGE | SET_VOLTAGE | VOLTAGE_MAX | VOLTAGE_MIN => {
            voltage(&mut board.voltages, id, value)
        }
        TEMPERATURE | TEMPERATURE_MAX => temperature(&board.temperature, id, value),
        ALLOCATE_MEMORY | LOCK_MEMORY | UNLOCK_MEMORY | RELEASE_MEMORY => {
            return memory::carry_out(board, id, value)
        }
        _ => clock(&mut board.clocks, id, value),
    };
    let item = word(value, 0);
    store_pair(value, item, number)
}

/// Stores as much of the answer as the value holds; gives the whole answer's length.
pub fn store(value: &mut [u8], answer: &[u8]) -> u32 {
    let stored = answer.len().min(value.len());
    value[..stored].copy_from_slice(&answer[..stored]);
    answer.len() as u32
}

pub fn store_pair(value: &mut [u8], first: u32, second: u32) -> u32 {
    let both = u64::from(second) << 32 | u64::from(first);
    store(value, &both.to_le_bytes())
}

pub fn store_span(value: &mut [u8], span: Span) -> u32 {
    store_pair(value, span.base, span.size)
}

fn power(devices: &mut [Device], tag: u32, request: &[u8]) -> u32 {
    let device = devices.get_mut(word(request, 0) as usize);
    let Some(device) = device.filter(|device| device.state.exists) else {
        return if tag == POWER_TIMING { 0 } else { ABSENT };
    };
    match tag {
        POWER_TIMING => return device.timing,
        SET_POWER => device.state.on = word(request, 4) & 1 == 1,
        _ => {}
    }
    u32::from(device.state.on)
}

fn clock(clocks: &mut [Clock], tag: u32, request: &[u8]) -> u32 {
    let clock = clocks.get_mut((word(request, 0) as usize).wrapping_sub(1));
    let Some(clock) = clock.filter(|clock| clock.state.exists) else {
        return if matches!(tag, CLOCK_STATE | SET_CLOCK_STATE) { ABSENT } else { 0 };
    };
    match tag {
        SET_CLOCK_STATE => clock.state.on = word(request, 4) & 1 == 1,
        SET_CLOCK_RATE => clock.rate = word(request, 4).clamp(clock.min, clock.max),
        _ => {}
    }
    match tag {
        CLOCK_RATE | SET_CLOCK_RATE => clock.rate,
        CLOCK_MAX => clock.max,
        CLOCK_MIN => clock.min,
        _ => u32::from(clock.state.on),
    }
}

fn voltage(voltages: &mut [Voltage], tag: u32, request: &[u8]) -> u32 {
    let voltage = voltages.get_mut((word(request, 0) as usize).wrapping_sub(1));
    let Some(voltage) = voltage.filter(|voltage| voltage.valid) else {
        return INVALID_VOLTAGE;
    };
    match tag {
        VOLTAGE_MAX => steps_down(voltage.max),
        VOLTAGE_MIN => steps_up(voltage.min),
        SET_VOLTAGE => {
            voltage.value = word(request, 4).clamp(voltage.min, voltage.max);
            voltage.value
        }
        _ => voltage.value,
    }
}

/// The voltage offset of these millivolts, rounded toward minus infinity.
fn steps_down(millivolts: u32) -> u32 {
    (millivolts as i32 - VOLTAGE_ORIGIN).div_euclid(VOLTAGE_STEP) as u32
}

/// The voltage offset of these millivolts, rounded toward plus infinity.
fn steps_up(millivolts: u32) -> u32 {
    -(VOLTAGE_ORIGIN - millivolts as i32).div_euclid(VOLTAGE_STEP) as u32
}

fn temperature(temperature: &Temperature, tag: u32, request: &[u8]) -> u32 {
    match (word(request, 0), tag) {
        (0, TEMPERATURE) => temperature.current,
        (0, _) => temperature.max,
        _ => 0,
    }
}

#[cfg(test)]
mod tests {
    use super::*;

    #[test]
    fn offsets_round_inward() {
        assert_eq!((steps_down(1_199) as i32, steps_up(1_199) as i32), (-1, 0));
        assert_eq!((steps_down(1_226) as i32, steps_up(1_226) as i32), (1, 2));
        assert_eq!((steps_down(1_200), steps_up(1_200)), (0, 0));
        assert_eq!((steps_down(0) as i32, steps_up(0) as i32), (-48, -48));
        assert_eq!((steps_down(10_000), steps_up(10_000)), (352, 352));
    }
}
