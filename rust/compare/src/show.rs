//! A case that disagrees, in words.

use crate::case::{Call, Case};
use crate::fields;
use crate::sides::{run, Disagreement, Side};
use interface::Board;

/// How many differing words and fields are printed, and how many of the calls' last.
const MOST: usize = 24;

pub fn print(case: &Case, disagreement: &Disagreement, bench: &Board) {
    let with = if case.board == *bench { "" } else { " with" };
    println!("  the bench record{with}");
    for ((name, value), _) in differing(&case.board, bench) {
        println!("    {} = {value} (0x{value:x})", fields::name(name));
    }
    if address_matters(case) {
        println!("  bytes lent at an address of {} modulo 16", case.address);
    }
    let made = &case.calls[..=disagreement.call];
    if !matches!(made[0], Call::Lend(_)) {
        println!("  no bytes lent");
    }
    for (index, call) in made.iter().enumerate() {
        if index < 2 || index + MOST > disagreement.call {
            println!("  {}. {}", index + 1, call_text(call));
        } else if index == 2 {
            println!("  ...");
        }
    }
    let call = &made[disagreement.call];
    let Disagreement { library, rules, .. } = disagreement;
    println!("  library: {}", numbers_text(call, library));
    if let Some(panic) = &rules.panic {
        println!("  rules:   {panic}");
        return;
    }
    println!("  rules:   {}", numbers_text(call, rules));
    print_bytes(library, rules);
    for ((name, library), (_, rules)) in differing(&library.board, &rules.board).take(MOST) {
        let name = fields::name(name);
        println!(
            "  {name} afterwards: library {library} (0x{library:x}), rules {rules} (0x{rules:x})"
        );
    }
}

/// Whether the sides agree where the lent bytes stand at another address.
fn address_matters(case: &Case) -> bool {
    (0..16).any(|address| run(&Case { address, ..case.clone() }, None).is_none())
}

type Value = (fields::Name, u64);

fn differing(one: &Board, other: &Board) -> impl Iterator<Item = (Value, Value)> {
    let pairs = fields::values(one).into_iter().zip(fields::values(other));
    pairs.filter(|(one, other)| one.1 != other.1)
}

/// Words in hexadecimal, equal ones in a row counted, then single bytes.
fn words_text(bytes: &[u8]) -> String {
    let mut text = String::new();
    let words: Vec<&[u8]> = bytes.chunks(4).collect();
    for (index, equal) in words.chunk_by(|one, other| one == other).enumerate() {
        if index == 4 * MOST {
            return text + " ...";
        }
        let shown = match *equal[0] {
            [a, b, c, d] => format!(" {:08x}", u32::from_le_bytes([a, b, c, d])),
            ref few => few.iter().map(|byte| format!(" {byte:02x}")).collect(),
        };
        match equal.len() {
            few @ 1..=4 => text += &shown.repeat(few),
            many => text += &format!("{shown} ({many} times)"),
        }
    }
    text
}

fn call_text(call: &Call) -> String {
    let cursor_text = |cursor: &Option<usize>| match cursor {
        Some(cursor) => format!("cursor {cursor}"),
        None => "the cursor given before".to_string(),
    };
    match call {
        Call::Lend(bytes) => format!("lend {} bytes:{}", bytes.len(), words_text(bytes)),
        Call::Write { at, word } => format!("write word {word:08x} at {at}"),
        Call::Serve => "serve".to_string(),
        Call::Start => "start".to_string(),
        Call::Add { cursor, id, size, request } => format!(
            "add at {}: id {id:08x}, size {size}, request of {} bytes:{}",
            cursor_text(cursor),
            request.len(),
            words_text(request)
        ),
        Call::Finish { cursor } => format!("finish at {}", cursor_text(cursor)),
        Call::List { index } => format!("list index {index}"),
        Call::Read { id, occurrence, wanted } => {
            format!("read id {id:08x}, occurrence {occurrence}, wanted {wanted}")
        }
        Call::ReadOr { id, occurrence, wanted, default } => format!(
            "read_or id {id:08x}, occurrence {occurrence}, wanted {wanted}, default of {default} bytes"
        ),
    }
}

fn numbers_text(call: &Call, side: &Side) -> String {
    let names = call.names()[1..].iter().zip(side.numbers);
    let texts = names.map(|(name, number)| match *name {
        "id" | "word" => format!("{name} {number:08x}"),
        _ => format!("{name} {number}"),
    });
    texts.collect::<Vec<_>>().join(", ")
}

fn print_bytes(library: &Side, rules: &Side) {
    let (one, other) = (library.bytes.lent(), rules.bytes.lent());
    let pairs = one.chunks(4).zip(other.chunks(4)).enumerate();
    for (index, (library, rules)) in pairs.filter(|(_, (one, other))| one != other).take(MOST) {
        let (library, rules) = (words_text(library), words_text(rules));
        println!("  word {index} of the lent bytes: library{library}, rules{rules}");
    }
    if !library.bytes.is_intact() {
        println!("  the library wrote outside the lent bytes");
    }
}
