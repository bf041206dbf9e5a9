//! `hac walk`: a file's tuples, a line each.

use crate::json::Object;
use crate::output::Output;
use crate::stop::Stop;
use hac::{types, Walk};

pub fn run(file: &[u8], back: bool, output: &mut Output) -> Result<(), Stop> {
    let tuples = if back {
        Walk::end(file).backwards(file)
    } else {
        Walk::START.forwards(file)
    };
    for tuple in tuples {
        let tuple = tuple?;
        let name = types::name(tuple.kind);
        output.tell(
            format_args!(
                "{:>8}  {:>5}  {name:<21}  {:>6}",
                tuple.place, tuple.kind, tuple.length
            ),
            || {
                Object::default()
                    .number("place", tuple.place)
                    .number("type", tuple.kind)
                    .text("name", name)
                    .number("length", tuple.length)
            },
        )?;
    }
    Ok(())
}
