//! What a call costs on every table, in Markdown: a row for each line of a block, a column for each table.

use super::block::Block;
use super::cost::Cost;
use super::line::Line;

pub fn print(what: &str, blocks: &[Block], cell: impl Fn(&Cost) -> String) {
    let columns: Vec<Vec<&Line>> = blocks.iter().map(|block| block.lines().collect()).collect();
    println!();
    let names = blocks.iter().map(|block| block.table.name.to_string());
    row(what, names);
    row("---", columns.iter().map(|_| "---:".to_string()));
    for (index, line) in columns[0].iter().enumerate() {
        let cells = columns.iter().map(|lines| cell(&lines[index].cost));
        row(&line.name, cells);
    }
}

fn row(first: &str, cells: impl Iterator<Item = String>) {
    let cells: Vec<String> = cells.collect();
    println!("| {first} | {} |", cells.join(" | "));
}
