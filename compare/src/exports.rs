//! The archive's exports, as include/hac.h declares them.

#[allow(dead_code)]
#[path = "../../include/calls.rs"]
mod calls;

use calls::Header;
use std::fmt::Write;
use std::sync::LazyLock;

static HEADER: LazyLock<Header> = LazyLock::new(|| {
    let header = Header::of(include_str!("../../include/hac.h"));
    header.unwrap_or_else(|why| panic!("{why}"))
});

/// Every export, in the runner's order.
pub static EXPORTS: LazyLock<Vec<Export>> = LazyLock::new(|| {
    let calls = HEADER.calls.iter().enumerate();
    let exports = calls.map(|(number, call)| Export {
        number,
        name: &call.name,
        entries: call.entries,
        parameters: call.parameters.len(),
    });
    exports.collect()
});

#[derive(Clone, Copy)]
pub struct Export {
    pub number: usize,
    /// Its name without the prefix that all have.
    pub name: &'static str,
    /// The least entries that it is to be lent for its answer.
    pub entries: usize,
    /// How many parameters it has, a slice counted as one, but for the answer.
    pub parameters: usize,
}

/// The export of a name. There must be one.
pub fn export(name: &str) -> Export {
    let found = EXPORTS.iter().find(|export| export.name == name);
    *found.unwrap_or_else(|| panic!("include/hac.h declares no hac_{name}"))
}

/// The list that the runner is made of, a line an export.
pub fn list() -> String {
    let mut list = String::new();
    for export in EXPORTS.iter() {
        writeln!(list, "CALL(hac_{})", export.name).expect("a string takes all");
    }
    list
}
