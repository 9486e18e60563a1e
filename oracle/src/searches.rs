//! egui's directional search by itself, on the tables that the port's is asked too (oracle/search).
use crate::clock::nanoseconds;
use crate::egui::memory::Search;
use crate::rng::Rng;
use crate::tables::{self, COUNTS, LAYOUTS, Table};
use std::io::{BufWriter, Write};

fn prepared(table: &Table) -> Search {
    let fields = table.fields.iter().map(|f| (f.id, f.edges));
    Search::new(fields, table.fields[table.focused].id)
}

/// A line a table: what is found in each direction from 0 to 6.
pub fn answers(count: u64, seed: u64) -> std::io::Result<()> {
    let mut out = BufWriter::new(std::io::stdout().lock());
    let mut rng = Rng::of(seed, 0);
    for _ in 0..count {
        let mut search = prepared(&tables::table(&mut rng));
        let found: Vec<String> = (0..7).map(|d| search.find(d).to_string()).collect();
        writeln!(out, "{}", found.join(" "))?;
    }
    out.flush()
}

/// Nanoseconds a search, the update of the cache with which egui's begins included.
pub fn times() {
    for (name, count) in LAYOUTS.iter().flat_map(|name| COUNTS.map(|n| (name, n))) {
        let mut search = prepared(&tables::layout(name, count));
        let time = nanoseconds(count, |d| search.find(d));
        println!("{name} {count} {time:.1}");
    }
}
