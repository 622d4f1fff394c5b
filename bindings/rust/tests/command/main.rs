//! The command `jeghatuf`: its table of fields, and that `show` and `make` undo each other.

mod draw;
mod files;
mod format;
mod names;
mod program;
mod undone;

#[path = "../../src/bin/jeghatuf/table.rs"]
#[allow(dead_code)]
mod table;
