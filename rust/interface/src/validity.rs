//! Which board records are valid.

use crate::frame_buffer::{need, supported};
use crate::record::{Block, Board, Clock, Display, Facts, Span, State, Voltage};

const HIGHEST_MILLIVOLTS: u32 = 10_000;
const DMA_CHANNELS: u32 = 0xFFFF;

pub fn is_valid(board: &Board) -> bool {
    facts_valid(&board.facts, board.line.len())
        && board.devices.iter().all(|device| state_valid(device.state))
        && board.clocks.iter().all(clock_valid)
        && board.voltages.iter().all(voltage_valid)
        && display_valid(&board.display)
        && heap_valid(&board.heap, &board.display.region)
        && blocks_valid(&board.blocks, &board.heap)
}

fn facts_valid(facts: &Facts, longest_line: usize) -> bool {
    facts.characters as usize <= longest_line && facts.dma & !DMA_CHANNELS == 0
}

/// What is absent is off.
fn state_valid(state: State) -> bool {
    state.exists || !state.on
}

fn clock_valid(clock: &Clock) -> bool {
    state_valid(clock.state)
        && (!clock.state.exists || (clock.min <= clock.rate && clock.rate <= clock.max))
}

fn voltage_valid(voltage: &Voltage) -> bool {
    !voltage.valid
        || (voltage.min <= voltage.value
            && voltage.value <= voltage.max
            && voltage.max <= HIGHEST_MILLIVOLTS)
}

fn display_valid(display: &Display) -> bool {
    let Display { region, settings, buffer } = display;
    region.end() <= u64::from(u32::MAX)
        && supported(settings, region)
        && (*buffer == Span::NONE || (region.holds(buffer) && need(settings) <= buffer.size))
}

fn heap_valid(heap: &Span, region: &Span) -> bool {
    heap.base > 0 && heap.end() <= u64::from(u32::MAX) && !heap.meets(region)
}

/// Every taken place holds a sound block, apart from those in the places before it.
fn blocks_valid(blocks: &[Block], heap: &Span) -> bool {
    blocks.iter().enumerate().filter(|(_, block)| block.taken).all(|(place, block)| {
        block_valid(block, heap)
            && blocks[..place]
                .iter()
                .all(|other| !other.taken || !other.span().meets(&block.span()))
    })
}

fn block_valid(block: &Block, heap: &Span) -> bool {
    block.size > 0
        && heap.holds(&block.span())
        && block.alignment.is_power_of_two()
        && block.base % block.alignment == 0
}
