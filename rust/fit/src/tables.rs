//! A board's tables in a folder, and the model's: `store.hex` and `indicators.hex`.

use crate::files::{self, shown};
use crate::hex::{self, Form};
use crate::job;
use crate::names::Names;
use crate::written::{self, MARK};
use cam::{Geometry, Memory};
use std::fmt::Write;
use std::path::Path;

const STORE: &str = "store.hex";
const INDICATORS: &str = "indicators.hex";

pub struct Tables {
    pub geometry: Geometry,
    pub store: Vec<u32>,
    pub indicators: Vec<u64>,
}

impl Tables {
    /// The two files of a folder.
    pub fn read(geometry: Geometry, folder: &Path) -> Result<Tables, String> {
        let store = Form {
            table: "store",
            words: geometry.depth as usize,
            digits: 8,
        };
        let indicators = Form {
            table: "indicators",
            words: job::indicator_words(geometry)?,
            digits: 16,
        };
        let words = |file: &str, form| {
            let name = folder.join(file);
            hex::words(&shown(&name), &files::read(&name)?, form)
        };
        let store = words(STORE, store)?;
        Ok(Tables {
            geometry,
            // Eight digits are no more than 32 bits.
            store: store.into_iter().map(|word| word as u32).collect(),
            indicators: words(INDICATORS, indicators)?,
        })
    }

    pub fn of(memory: &Memory) -> Tables {
        Tables {
            geometry: memory.geometry(),
            store: memory.store().to_vec(),
            indicators: memory.indicators().to_vec(),
        }
    }

    /// How many words both tables have.
    pub fn words(&self) -> usize {
        self.store.len() + self.indicators.len()
    }

    /// Puts the two files into a folder.
    pub fn write(&self, folder: &Path) -> Result<(), String> {
        let files = [
            (STORE, self.store_text()),
            (INDICATORS, self.indicators_text()),
        ];
        written::write_all(folder, &files)
    }

    fn store_text(&self) -> String {
        let mut text = self.head("store");
        for word in &self.store {
            writeln!(text, "{word:08x}").expect("a string takes any text");
        }
        text
    }

    fn indicators_text(&self) -> String {
        let names = Names::new(self.geometry);
        let mut text = self.head("indicators");
        for (row, words) in self.indicators.chunks(names.row_words()).enumerate() {
            text += &format!("// {}\n", names.row(row));
            for word in words {
                writeln!(text, "{word:016x}").expect("a string takes any text");
            }
        }
        text
    }

    fn head(&self, table: &str) -> String {
        format!("{MARK}{table}: {}\n", geometry_line(self.geometry))
    }
}

/// As the first line of a report has it (rule 14.1).
pub fn geometry_line(g: Geometry) -> String {
    let Geometry {
        kind,
        depth,
        pattern_width,
        set_width,
    } = g;
    format!("kind {kind} depth {depth} width {pattern_width} set {set_width}")
}
