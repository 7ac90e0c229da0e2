//! The record's fields, one by one.

use interface::{Board, Span, State};

/// A field's name: of the whole, the index of an item, of the part.
pub type Name = (&'static str, Option<usize>, &'static str);

pub fn name((whole, index, part): Name) -> String {
    match index {
        Some(index) => format!("{whole}[{index}]{part}"),
        None => format!("{whole}{part}"),
    }
}

enum Field<'a> {
    Bit(&'a mut bool),
    Byte(&'a mut u8),
    Word(&'a mut u32),
    Long(&'a mut u64),
}

impl Field<'_> {
    fn value(&self) -> u64 {
        match self {
            Field::Bit(bit) => u64::from(**bit),
            Field::Byte(byte) => u64::from(**byte),
            Field::Word(word) => u64::from(**word),
            Field::Long(long) => **long,
        }
    }

    fn set(self, value: u64) {
        match self {
            Field::Bit(bit) => *bit = value & 1 == 1,
            Field::Byte(byte) => *byte = value as u8,
            Field::Word(word) => *word = value as u32,
            Field::Long(long) => *long = value,
        }
    }
}

type Visit<'v> = &'v mut dyn FnMut(Name, Field);

/// The names and values of all fields, always in the same order.
pub fn values(board: &Board) -> Vec<(Name, u64)> {
    let mut values = Vec::with_capacity(640);
    visit(&mut board.clone(), &mut |name, field| values.push((name, field.value())));
    values
}

/// Sets the field of this index in that order.
pub fn set(board: &mut Board, index: usize, value: u64) {
    let mut at = 0;
    visit(board, &mut |_, field| {
        if at == index {
            field.set(value);
        }
        at += 1;
    });
}

fn visit(board: &mut Board, see: Visit) {
    visit_facts(board, see);
    visit_items(board, see);
    visit_display(board, see);
    visit_memory(board, see);
}

fn visit_span(span: &mut Span, whole: &'static str, see: Visit) {
    see((whole, None, ".base"), Field::Word(&mut span.base));
    see((whole, None, ".size"), Field::Word(&mut span.size));
}

fn visit_state(state: &mut State, whole: &'static str, index: usize, see: Visit) {
    see((whole, Some(index), ".state.exists"), Field::Bit(&mut state.exists));
    see((whole, Some(index), ".state.on"), Field::Bit(&mut state.on));
}

fn visit_facts(board: &mut Board, see: Visit) {
    let facts = &mut board.facts;
    see(("facts.firmware", None, ""), Field::Word(&mut facts.firmware));
    see(("facts.model", None, ""), Field::Word(&mut facts.model));
    see(("facts.revision", None, ""), Field::Word(&mut facts.revision));
    for (index, byte) in facts.mac.iter_mut().enumerate() {
        see(("facts.mac", Some(index), ""), Field::Byte(byte));
    }
    see(("facts.serial", None, ""), Field::Long(&mut facts.serial));
    visit_span(&mut facts.arm, "facts.arm", see);
    visit_span(&mut facts.vc, "facts.vc", see);
    see(("facts.dma", None, ""), Field::Word(&mut facts.dma));
    see(("facts.characters", None, ""), Field::Word(&mut facts.characters));
    for (index, byte) in board.line.iter_mut().enumerate() {
        see(("line", Some(index), ""), Field::Byte(byte));
    }
}

fn visit_items(board: &mut Board, see: Visit) {
    for (index, device) in board.devices.iter_mut().enumerate() {
        visit_state(&mut device.state, "devices", index, see);
        see(("devices", Some(index), ".timing"), Field::Word(&mut device.timing));
    }
    for (index, clock) in board.clocks.iter_mut().enumerate() {
        visit_state(&mut clock.state, "clocks", index, see);
        see(("clocks", Some(index), ".rate"), Field::Word(&mut clock.rate));
        see(("clocks", Some(index), ".min"), Field::Word(&mut clock.min));
        see(("clocks", Some(index), ".max"), Field::Word(&mut clock.max));
    }
    for (index, voltage) in board.voltages.iter_mut().enumerate() {
        see(("voltages", Some(index), ".valid"), Field::Bit(&mut voltage.valid));
        see(("voltages", Some(index), ".value"), Field::Word(&mut voltage.value));
        see(("voltages", Some(index), ".min"), Field::Word(&mut voltage.min));
        see(("voltages", Some(index), ".max"), Field::Word(&mut voltage.max));
    }
    see(("temperature.current", None, ""), Field::Word(&mut board.temperature.current));
    see(("temperature.max", None, ""), Field::Word(&mut board.temperature.max));
}

fn visit_display(board: &mut Board, see: Visit) {
    let display = &mut board.display;
    visit_span(&mut display.region, "display.region", see);
    let settings = &mut display.settings;
    let words = [
        (".physical.width", &mut settings.physical.width),
        (".physical.height", &mut settings.physical.height),
        (".logical.width", &mut settings.logical.width),
        (".logical.height", &mut settings.logical.height),
        (".offset.x", &mut settings.offset.x),
        (".offset.y", &mut settings.offset.y),
        (".depth", &mut settings.depth),
        (".order", &mut settings.order),
        (".alpha", &mut settings.alpha),
    ];
    for (part, word) in words {
        see(("display.settings", None, part), Field::Word(word));
    }
    visit_span(&mut display.buffer, "display.buffer", see);
}

fn visit_memory(board: &mut Board, see: Visit) {
    visit_span(&mut board.heap, "heap", see);
    for (index, block) in board.blocks.iter_mut().enumerate() {
        see(("blocks", Some(index), ".taken"), Field::Bit(&mut block.taken));
        see(("blocks", Some(index), ".locked"), Field::Bit(&mut block.locked));
        see(("blocks", Some(index), ".base"), Field::Word(&mut block.base));
        see(("blocks", Some(index), ".size"), Field::Word(&mut block.size));
        see(("blocks", Some(index), ".alignment"), Field::Word(&mut block.alignment));
        see(("blocks", Some(index), ".flags"), Field::Word(&mut block.flags));
    }
}
