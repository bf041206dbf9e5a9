//! The library, the header and the program, on the samples, the vectors and
//! copies of them that are damaged by rule. Known answers come from documents 01
//! and 02 and from the samples' lines.

mod advice;
mod arguments;
mod check;
mod corrections;
mod damage;
mod deposit;
mod edit_command;
mod edits;
mod energy;
mod face;
mod install;
mod json;
mod kinds;
mod known;
mod lengths;
mod links;
mod makers;
mod many;
mod names;
mod normal;
mod normals;
mod picture;
mod pings;
mod png;
mod progress;
mod readings;
mod record_command;
mod records;
mod room;
mod salvage;
mod same;
mod scale;
mod settings;
mod show;
mod streams;
mod walk;
mod wrong;
