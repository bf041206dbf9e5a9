//! The header: by itself, and in C programs linked with the archive.

#[allow(dead_code)]
#[path = "../../include/calls.rs"]
mod calls;

use crate::damage;
use crate::known::{
    decode, e3, four_bytes, repository, two_bytes, Known, Tuple, COMPARED, NORMAL, SPELLINGS,
};
use crate::records::plain;
use crate::room::{run, Ran, Room};
use calls::{Call, Header, Shape};
use std::fmt::Write;
use std::path::{Path, PathBuf};
use std::process::Command;

/// A compiler must be there: that the header can be used isn't left untried.
fn compile(compiler: &mut Command) {
    let ran: Ran = compiler.output().expect("a C compiler").into();
    assert_eq!(
        (ran.status, ran.out.as_str(), ran.err.as_str()),
        (0, "", "")
    );
}

const STRICT: [&str; 4] = ["-Wall", "-Wextra", "-Werror", "-pedantic"];

#[test]
fn the_header_alone() {
    let alone = |compiler: &str, options: &[&str], header: &str| {
        let mut command = Command::new(compiler);
        compile(
            command
                .args(STRICT)
                .arg("-fsyntax-only")
                .args(options)
                .arg(repository(header)),
        );
    };
    for header in ["include/hac.h", "include/hac_records.h"] {
        alone("cc", &["-std=c99", "-x", "c"], header);
        alone("c++", &["-x", "c++"], header);
        alone("c++", &["-std=c++98", "-x", "c++"], header);
    }
}

/// The example of the header's comment that shows a call: what is set in deeper than the
/// rest of it.
fn example_of(call: &str) -> String {
    let header = std::fs::read_to_string(repository("include/hac.h")).expect("the header");
    let mut examples = header.split("/*").skip(1).map(|rest| -> String {
        let (comment, _) = rest.split_once("*/").expect("a comment's end");
        let lines = comment.lines();
        let lines = lines.filter_map(|line| line.strip_prefix("       "));
        lines.map(|line| format!("{line}\n")).collect()
    });
    let shows = |example: &String| example.contains(&format!("hac_{call}("));
    examples.find(shows).expect("an example")
}

/// All examples, each as a function that is handed what it needs.
#[test]
fn the_examples() {
    let first = example_of("check");
    for call in ["forward", "read_record", "write_record"] {
        assert!(first.contains(&format!("hac_{call}(")), "{call}");
    }
    let file = "const uint8_t *file, size_t length";
    let two_files = "const uint8_t *deposit, size_t deposit_length, \
                     const uint8_t *corrections, size_t corrections_length, \
                     uint16_t channel, uint32_t number, FILE *to";
    for (example, handed) in [
        (first, file.to_string()),
        (example_of("settings"), file.to_string()),
        (example_of("find_ping"), two_files.to_string()),
        (
            example_of("append"),
            format!("{file}, const uint8_t *tuples, size_t tuples_length, FILE *to"),
        ),
        (example_of("salvage"), format!("{file}, FILE *to")),
    ] {
        let source = format!(
            "#include \"hac.h\"\n#include <stdio.h>\n#include <stdlib.h>\n\
             void example({handed});\nvoid example({handed}) {{\n{example}}}\n"
        );
        let room = Room::new();
        let path = room.put("example.c", source.as_bytes());
        let mut command = Command::new("cc");
        command
            .args(STRICT)
            .args(["-std=c99", "-fsyntax-only", "-I"]);
        compile(command.arg(repository("include")).arg(path));
    }
}

/// Compiles a C program of this folder and links the archive.
fn built(room: &Room, name: &str) -> PathBuf {
    let folder = Path::new(env!("CARGO_MANIFEST_DIR")).join("tests");
    linked(room, name, &folder.join(format!("{name}.c")))
}

/// Compiles a C program and links the archive.
fn linked(room: &Room, name: &str, source: &Path) -> PathBuf {
    let program = room.at(name);
    let mut command = Command::new("cc");
    command
        .args(STRICT)
        .args(["-std=c99", "-O1", "-I"])
        .arg(repository("include"));
    command
        .arg(source)
        .arg(repository("target/archive/libarchive.a"));
    compile(command.arg("-o").arg(&program));
    program
}

/// What face.c prints of a tuple; the n-th ping has the samples and the length of the
/// normal form's n-th.
fn printed(known: &Known, tuple: &Tuple, normal: &mut dyn Iterator<Item = &Tuple>) -> String {
    match tuple.kind() {
        30 => format!("heading {}\n", tuple.two(14) as i16),
        20 => format!(
            "position {} {}\n",
            tuple.four(20) as i32,
            tuple.four(24) as i32
        ),
        10110 => {
            let text = &tuple.bytes[12..tuple.bytes.len() - 8];
            format!("event {}\n", std::str::from_utf8(text).expect("text"))
        }
        10000 | 10010 => {
            let normal = normal.next().expect("a ping");
            let mut channels = known.channels();
            let channel = channels.find(|channel| channel.two(6) == tuple.two(12));
            let channel = channel.expect("a channel");
            let (number, sounder) = (channel.two(6), channel.four(8));
            let (rate, kind) = (channel.four(12), channel.two(16));
            let maker = match channel.kind() {
                1000 => "Biosonics",
                _ => "Simrad",
            };
            let values = normal.samples().values;
            let count = values.len();
            let sum: i64 = values.into_iter().map(i64::from).sum();
            let length = match normal.length() {
                Some(length) => format!("length {length}"),
                None => "no length".into(),
            };
            format!(
                "ping of {number} of {sounder}, {maker}, rate {rate}, type {kind}: \
                 {count} samples, sum {sum}, {length}\n"
            )
        }
        _ => String::new(),
    }
}

#[test]
fn face() {
    let room = Room::new();
    let program = built(&room, "face");
    let normal = Known::sample(NORMAL);
    for name in SPELLINGS {
        let known = Known::sample(name);
        let tuples = known.tuples.len();
        let mut expected = format!("{tuples} tuples, {COMPARED} compared\n");
        let mut pings = normal.tuples.iter().filter(|tuple| tuple.is_ping());
        for tuple in &known.tuples {
            write!(expected, "{}", printed(&known, tuple, &mut pings)).expect("a string");
        }
        assert!(expected.contains("heading -905\n"));
        let ran = run(Command::new(&program).arg(&known.path));
        assert_eq!((ran.status, ran.out, ran.err), (0, expected, String::new()));
    }
    for copy in damage::all(&Known::sample("cruise-lsb")) {
        // face.c reads no byte more than a file may have
        if copy.code == 1 {
            continue;
        }
        let path = room.put(copy.name, &copy.bytes);
        let ran = run(Command::new(&program).arg(path));
        let refused = format!("refused {} at {}", copy.code, copy.place);
        let said = format!("{refused}: 0 tuples, 0 compared\n");
        assert_eq!((ran.status, ran.out), (1, said), "{}", copy.name);
    }
}

/// What alter.c is to write of a tuple: a field or two altered, spaces 0.
fn altered(tuple: &Tuple) -> Option<Vec<u8>> {
    let later = || {
        let fraction = two_bytes(tuple.order, tuple.two(6) + 1);
        let time = four_bytes(tuple.order, tuple.four(8) + 1);
        [&fraction[..], &time].concat()
    };
    let (at, bytes) = match tuple.kind() {
        // the heading; the sound speed; both times
        30 => (14, two_bytes(tuple.order, -905_i16 as u16).to_vec()),
        100 | 200 => (12, two_bytes(tuple.order, 15_000).to_vec()),
        10110 | 65534 => (6, later()),
        _ => return None,
    };
    let mut written = plain(tuple);
    written[at..at + bytes.len()].copy_from_slice(&bytes);
    Some(written)
}

/// What alter.c writes of an EK-500's sounder, by TR's Table 3: the document identifier
/// at 8; the super layer's range at 28, its start in the four bytes from 30 on, its
/// margin at 34.
const EK500: &str = "00000046 00c8 0000 0000c365 0000 0000 0000 0000 0000 0000 0000 0000 01f4 \
     fffeff9c 0005 0000 00000000 000000000000000000000000000000000000000000000000000000000000 \
     00000000 00000050";

/// Records read in C, a field altered by its name, and written back; and two whose
/// fields are named where they are handed over.
#[test]
fn alter() {
    let room = Room::new();
    let program = built(&room, "alter");
    for name in SPELLINGS {
        let known = Known::sample(name);
        let named = [&e3()[hac::FIRST_PLACE..], &decode(EK500)];
        let mut expected = named.map(|tuple| hexadecimal(tuple) + "\n").concat();
        for written in known.tuples.iter().filter_map(altered) {
            writeln!(expected, "{}", hexadecimal(&written)).expect("a string");
        }
        let ran = run(Command::new(&program).arg(&known.path));
        assert_eq!((ran.status, ran.out, ran.err), (0, expected, String::new()));
    }
}

/// What silence.c prints, by TR's Table 20 and documents 01 and 02: the header of E4 with
/// no samples, one run of 1; with two runs, of 65,536 and 1; with a run of 2, two values
/// and a run of 6, of 1 or none behind them.
const SILENCE: [&str; 8] = [
    "0000001e 271a 0000 0000003c 0001 0000 00000001 7fffffff \
     00000000 ffff0000 00000000 00000028 length 1",
    "00000022 271a 0000 0000003c 0001 0000 00000001 7fffffff \
     00000000 ffffffff ffff0000 00000000 0000002c length 65537",
    "refused 26 at 0",
    "refused 22 at 0",
    "0000002a 271a 0000 0000003c 0001 0000 00000001 7fffffff \
     00000002 ffff0001 00000064 fffeee90 ffff0005 00000000 00000034 length 10",
    "0000002a 271a 0000 0000003c 0001 0000 00000001 7fffffff \
     00000002 ffff0001 00000064 fffeee90 ffff0000 00000000 00000034 length 5",
    "refused 26 at 0",
    "00000026 271a 0000 0000003c 0001 0000 00000001 7fffffff \
     00000002 ffff0001 00000064 fffeee90 00000000 00000030 no length, 0 told",
];

/// Pings written in C with a length and without, and read back.
#[test]
fn silence() {
    prints("silence", &SILENCE);
}

/// What a C program of this folder prints, blanks apart.
fn prints(name: &str, lines: &[&str]) {
    let room = Room::new();
    let program = built(&room, name);
    let ran = run(&mut Command::new(&program));
    let spread = |line: &&str| line.split_whitespace().collect::<String>();
    let printed: Vec<String> = ran.lines().iter().map(spread).collect();
    assert_eq!(printed, lines.iter().map(spread).collect::<Vec<_>>());
    assert_eq!((ran.status, ran.err.as_str()), (0, ""));
}

/// What kinds.c prints, by TR's Tables 19 and 21 to 24 and documents 01 and 02: E4's header
/// with a ping of each kind; of U-16-angles one sample and so a space; of C-16 a run of 2,
/// two values, and 257 samples of silence as runs of 256 and 1, an odd number of words; of
/// CE-16 the word A001 for -(0x1000 + 1) * 2.
const KINDS: [&str; 8] = [
    "26000000 1127 0000 3c000000 0100 0000 01000000 ffffff7f \
     02000000 d4fe 0700 03000000 6400 f8ff 00000000 30000000 U-32-16-angles 2: 2 -300 7",
    "1e000000 2e27 0000 3c000000 0100 0000 01000000 ffffff7f \
     0200 d4fe 0300 6400 00000000 28000000 U-16 2: 2 -300",
    "1e000000 2f27 0000 3c000000 0100 0000 01000000 ffffff7f \
     0200 d4fe 0700 0000 00000000 28000000 U-16-angles 1: 2 -300 7",
    "26000000 3827 0000 3c000000 0100 0000 01000000 ffffff7f \
     02000000 01ff d4fe 6400 ffff 00ff 0000 00000000 30000000 C-16 2 length 261: 2 -300",
    "22000000 4227 0000 3c000000 0100 0000 01000000 ffffff7f \
     02000000 01ff 01a0 6400 0000 00000000 2c000000 CE-16 2: 2 -8194",
    "refused 21 at 1",
    "refused 26 at 0",
    "refused 23 at 1",
];

/// A ping of each kind written in C and read back.
#[test]
fn kinds() {
    prints("kinds", &KINDS);
}

/// What salvage.c prints: of a signature, four bytes, a navigation whose backlink is gone,
/// another and three bytes the ranges that 02 gives, and the output. Places tried: the two
/// tuples, the four bytes, the seven words of the damaged one, and the last.
const SALVAGE: [&str; 9] = [
    "kept 4 to 28",
    "dropped 28 to 60",
    "kept 60 to 88",
    "dropped 88 to 91",
    "tuples 2, length 56, compared 0, ranges 4, tried 11",
    "000000ac 0000000e ffff acac 0000 0000 00000000 00000000 00000018 \
     00000012 001e 0000 00000000 0000 0000 0000 0000 00000000 0000001c",
    "refused 27 at 0, nothing written",
    "refused 19 at 0, nothing written",
    "refused 2 at 0, nothing written",
];

/// A damaged file salvaged in C, with what the header says to lend, and with less.
#[test]
fn salvage() {
    prints("salvage", &SALVAGE);
}

/// What settings.c prints, by 02: the lengths of the tuples give the places. Compared are a
/// channel's sounder and the channel of three pings, two thresholds and one attitude.
const SETTINGS: [&str; 8] = [
    "ping at 244: threshold at 0, attitude at 0",
    "ping at 360: threshold at 280, attitude at 324",
    "ping at 432: threshold at 280, attitude at 396",
    "tuples 12, length 3, compared 7",
    "refused 19 at 0, nothing written",
    "refused 19 at 0, nothing written",
    "refused 19 at 0, nothing written",
    "refused 2 at 0, nothing written",
];

/// Which settings held at each ping, asked in C with what the header says to lend, and
/// with less.
#[test]
fn settings() {
    prints("settings", &SETTINGS);
}

/// What corrections.c prints, by 02: the lengths of the tuples give the places. The first ping
/// of either file stands at 244 and has 36 bytes; what is left of the end of file that is cut
/// starts at 352.
const CORRECTIONS: [&str; 8] = [
    "ping 1: mark 1, place 244, tuples 1, length 36, compared 0, attribute 0",
    "ping 2: mark 2, place 280, tuples 1, length 36, compared 0, attribute 1",
    "ping 3: mark 1, place 316, tuples 1, length 36, compared 0, attribute 0",
    "ping 4: mark 2, place 316, tuples 1, length 36, compared 0, attribute 1",
    "refused 31 at 0, mark 0, 0 0 0, place left",
    "refused 3 at 352, mark 1, 0 0 0, place left",
    "refused 3 at 352, mark 2, 0 0 0, place left",
    "refused 2 at 0, mark 1, 0 0 0, place left",
];

/// Pings of two files, asked for in C.
#[test]
fn corrections() {
    prints("corrections", &CORRECTIONS);
}

/// What echoes.c prints, by 02: the lengths of the tuples give the places. -3 dB is -10 dB and
/// 140 steps, of which the entry is the 200th root of 10^1340 rounded down, 5011872; it stands
/// for 10^7 times as many units. Compared are two channels' sounders, and 1, 1, 2 and 1 for the
/// pings.
const ECHOES: [&str; 17] = [
    "energy 50118720000000, tuples 10, length 0, compared 7",
    "0 0, 2 -3, the rest stays, tuples 10, compared 7",
    "energy: refused 29 at 0, nothing written",
    "0 0, 2 0.01, the rest stays, tuples 10, compared 7",
    "energy: refused 28 at 424, nothing written",
    "0 0, 1 -1.5, the rest stays, tuples 10, compared 7",
    "energy: refused 28 at 460, nothing written",
    "readings: refused 30 at 460, nothing written",
    "352: 50118720000000 0, 388: 0 29, 424: 0 28, 460: 0 28, tuples 10, compared 7",
    "energy: refused 9 at 356, nothing written",
    "readings: refused 9 at 356, nothing written",
    "energies: refused 19 at 0, nothing written",
    "energies: refused 19 at 0, nothing written",
    "energies: refused 19 at 0, nothing written",
    "energy: refused 2 at 0, nothing written",
    "readings: refused 2 at 0, nothing written",
    "energies: refused 2 at 0, nothing written",
];

/// Energies and readings, asked for in C.
#[test]
fn echoes() {
    prints("echoes", &ECHOES);
}

/// What edits.c prints, by TR's Table 14 and 02: the lengths of the tuples give the places. Its
/// file has 328 bytes, of which the 24 from 280 on are a stale index. Six types have no space
/// behind them; seven have one, which is read as a last 0. The end of file that is removed
/// leaves an index of six types at 308.
const EDITS: [&str; 13] = [
    "tuples 7, length 336, compared 2",
    "index at 280: 20 100 1000 10030 65534 65535",
    "00000016 ff7e 0000 00000000 0014 0064 03e8 272e fffe ffff 00000000 00000020",
    "tuples 7, length 368, compared 2",
    "index at 308: 20 30 100 1000 10030 65534 65535 0",
    "0000001a ff7e 0000 00000000 0014 001e 0064 03e8 272e fffe ffff 0000 00000000 00000024",
    "refused 19 at 0, 0 0 0, nothing written",
    "as it was",
    "refused 3 at 281, 0 0 0, nothing written",
    "refused 4 at 340, 0 0 0, nothing written",
    "refused 3 at 308, 0 0 0, nothing written",
    "refused 15 at 332, 0 0 0, nothing written",
    "refused 2 at 0, 0 0 0, nothing written",
];

/// An index written in C, kept true while a tuple is appended and removed, and refusals.
#[test]
fn edits() {
    prints("edits", &EDITS);
}

fn hexadecimal(bytes: &[u8]) -> String {
    bytes.iter().map(|byte| format!("{byte:02x}")).collect()
}

/// The bytes of each slice that few entries are tried with, and what lent memory
/// holds before a call.
const SLICE: usize = 64;
const FILLED: u8 = 0xA5;

/// In C: the call with each number of entries that is too few.
fn with_few(call: &Call) -> String {
    let (mut handed, mut lent_slices) = (String::new(), 0);
    for parameter in &call.parameters {
        handed.push_str(&match parameter.shape {
            Shape::Number(_) => "4, ".into(),
            Shape::Flag => "false, ".into(),
            Shape::Slice { element, lent } => {
                let memory = if lent {
                    lent_slices += 1;
                    format!("({} *)lent.slices[{}]", element.c, lent_slices - 1)
                } else {
                    format!("(const {} *)given", element.c)
                };
                format!("{memory}, {SLICE} / sizeof({}), ", element.c)
            }
        });
    }
    let (name, entries) = (&call.name, call.entries);
    format!(
        "    for (size_t entries = 0; entries < {entries}; entries++) {{
        lent = before;
        judge(\"hac_{name}\", hac_{name}({handed}lent.answer, entries), entries);
    }}
    puts(\"hac_{name}\");
"
    )
}

/// Every call of the header, made with each number of entries that is too few, returns
/// 19 and writes nothing. The program that tries it is made from the header.
#[test]
fn few_entries() {
    let header = std::fs::read_to_string(repository("include/hac.h")).expect("the header");
    let header = Header::of(&header).expect("declarations");
    let most = header.calls.iter().map(|call| call.entries).max();
    let most = most.expect("a call");
    let tried: String = header.calls.iter().map(with_few).collect();
    let source = format!(
        "#include \"hac.h\"
#include <stdio.h>
#include <stdlib.h>
#include <string.h>

static const uint64_t given[{SLICE} / 8];

static struct {{
    uint64_t slices[8][{SLICE} / 8], answer[{most}];
}} lent, before;

static void judge(const char *call, uint8_t code, size_t entries) {{
    if (code != HAC_NO_ROOM || memcmp(&lent, &before, sizeof lent) != 0) {{
        printf(\"%s with %d entries\\n\", call, (int)entries);
        exit(1);
    }}
}}

int main(void) {{
    memset(&before, {FILLED}, sizeof before);
{tried}    return 0;
}}
"
    );
    let room = Room::new();
    let program = linked(&room, "few", &room.put("few.c", source.as_bytes()));
    let ran = run(&mut Command::new(&program));
    let calls: Vec<String> = header
        .calls
        .iter()
        .map(|call| format!("hac_{}", call.name))
        .collect();
    assert_eq!(ran.lines(), calls);
    assert_eq!(ran.status, 0);
}
