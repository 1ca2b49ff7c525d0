//! An earlier version of the proved program and library beside this one and the second program: what recorded calls cost on six
//! tables, and their soundness checks alone, by time and by instructions.

mod block;
mod cost;
mod line;
mod markdown;
mod measure;
mod rules;
mod table;
mod version;

use crate::made::Folder;
use crate::timing::in_hundredths;
use block::Block;
use compare::make::FILLING;
use cost::grouped;
use line::Line;
use measure::measure;
use rules::Rules;
use std::path::Path;
use table::{Table, FULL_OF_20};
use version::Version;

pub fn report(folder_before: &Path, repeats: usize) -> Result<(), String> {
    let before = Version::before(folder_before);
    let versions = [before, Version::after()?, Version::second()?];
    let folder = Folder::new()?;
    let tables = Table::all(&folder)?;
    let block = |table| Block::of(table, &versions);
    let mut blocks: Vec<Block> = tables.iter().map(block).collect();
    let [before, after, _] = &versions;
    let mut rules = [before, after].map(|version| Rules::of(version, &tables[FULL_OF_20]));

    let mut lines: Vec<&mut Line> = blocks.iter_mut().flat_map(Block::lines_mut).collect();
    lines.extend(rules.iter_mut().flat_map(Rules::lines_mut));
    measure(lines, repeats, &folder.file("report"))?;

    introduce(repeats);
    blocks.iter().for_each(print_block);
    rules.iter().for_each(print_rules);
    print_markdown(&blocks);
    Ok(())
}

fn introduce(repeats: usize) {
    println!("Recorded calls on six tables, by the version before, by the one after and by the second program, whose replay is second_replay.");
    println!("What the first {FILLING} calls take, which fill the table, is taken off. Median of {repeats} repeats (least to most), instructions by callgrind.");
    println!("The night read and no call made is in every line of a table but those of replay.");
}

fn heading(what: &str) {
    println!(
        "{what:<44} {:<26} {:>12}",
        "microseconds a call", "instructions"
    );
}

fn print_block(block: &Block) {
    let Table { name, holds, .. } = block.table;
    println!();
    println!("{name}: {holds}");
    heading(&format!("{} calls", grouped(block.table.calls() as f64)));
    block.print();
}

fn print_rules(rules: &Rules) {
    println!();
    println!(
        "the soundness check {}, rule by rule, on the full table of names of 20 bytes",
        rules.version
    );
    println!("in percent the shares of the time and of the instructions");
    heading("");
    rules.print();
}

fn print_markdown(blocks: &[Block]) {
    markdown::print("instructions a call", blocks, |cost| {
        grouped(cost.instructions)
    });
    markdown::print("microseconds a call, median", blocks, |cost| {
        in_hundredths(cost.timing().median())
    });
}
