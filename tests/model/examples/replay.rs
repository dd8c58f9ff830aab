//! What the small program of document 02, K5 prints, by the model: `cargo run --example replay -- FILE`. "with room for 400 records, 100 positions and 100
//! processes, and prints the named line's number, or all rows in that order, cells parted by tabs". The expected outputs beside the journals were made with it.

use model::{handle, Reply, Request};

fn main() {
    let file = std::env::args().nth(1).expect("usage: replay FILE");
    let text = std::fs::read(&file).unwrap_or_else(|error| panic!("{file}: {error}"));
    let layouts = [(2, 400, 14), (1, 100, 7), (1, 100, 9)];
    let mut tables = layouts.map(|(header, room, width)| vec![0; header + room * width]);
    let [records, positions, processes] = &mut tables;
    match handle(records, positions, processes, &Request::Replay { text }).reply {
        Reply::BadLine { line } | Reply::LineRefused { line, .. } => println!("{line}"),
        _ => {
            for (table, (header, _, width)) in tables.iter().zip(layouts) {
                for row in table[header..].chunks(width).take(table[0] as usize) {
                    println!("{}", row.iter().map(i64::to_string).collect::<Vec<String>>().join("\t"));
                }
            }
        }
    }
}
