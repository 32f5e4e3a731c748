//! The groups of cases.
extern crate original;

mod editions;
mod generate;
mod inputs;
mod large;
mod looked;
mod memory;
mod random;
mod reader;
mod refusals;
mod sides;
mod streams;
mod tally;
mod texts;
mod theirs;
mod walk;

use tally::Tally;

type Group = (&'static str, fn(&mut Tally));

/// Runs every group, prints its counts and the sum; fails if anything differs.
pub fn all() {
    let groups: [Group; 20] = [
        ("short literals", texts::literals),
        ("short lines, fields", texts::lines),
        ("pairs of lines", texts::pairs_of_lines),
        ("texts, damaged", texts::damaged),
        ("texts that are not UTF-8", texts::not_utf8),
        ("long tokens and numbers", texts::long),
        ("room: 17, 18, 21", refusals::room),
        ("short memory: 1", refusals::short_memory),
        ("refused calls of streams", refusals::calls),
        ("inputs and id lists", inputs::inputs),
        ("all short inputs", inputs::short_inputs),
        ("other memory, encoding", memory::encoding),
        ("other memory, long walks", memory::long_walks),
        ("other memory, decoding", memory::decoding),
        ("streams", streams::streams),
        ("all short streams", streams::short_streams),
        ("edition 2, short literals", editions::short),
        ("edition 2, long escapes", editions::long),
        ("what both editions read", editions::both),
        ("no such edition: 34", editions::no_such_edition),
    ];
    std::panic::set_hook(Box::new(|panic| {
        // The original panics on some other memory, which is expected.
        if !panic.location().is_some_and(|at| at.file().contains("original")) {
            eprintln!("{panic}");
        }
    }));
    let mut totals: Vec<(u64, u64)> = groups.map(|(name, run)| Tally::group(name, run)).to_vec();
    match std::env::var_os("RWKV_LARGE").map(std::fs::read_to_string) {
        Some(text) => {
            let text = text.expect("RWKV_LARGE names a text");
            totals.push(Tally::group("the large vocabulary", |tally| large::large(tally, &text)));
        }
        None => println!("the large vocabulary is skipped: RWKV_LARGE names no file"),
    }
    let (cases, differences) = totals.iter().fold((0, 0), |sum, group| (sum.0 + group.0, sum.1 + group.1));
    println!("{cases} cases, {differences} differences");
    if differences > 0 {
        std::process::exit(1);
    }
}
