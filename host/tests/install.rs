//! What `host/install` puts under a prefix, and that it serves: the page of the manual, the
//! completion, the library for C by its pkg-config file.

use crate::known::repository;
use crate::room::{hac, run, Room};
use std::fs;
use std::path::Path;
use std::process::Command;

/// All that is installed, below the prefix.
const INSTALLED: [&str; 7] = [
    "bin/hac",
    "include/hac.h",
    "include/hac_records.h",
    "lib/libhac.a",
    "lib/pkgconfig/hac.pc",
    "share/bash-completion/completions/hac",
    "share/man/man1/hac.1",
];

fn install(prefix: &Path) {
    let ran = run(Command::new(repository("host/install")).arg(prefix));
    assert_eq!((ran.status, ran.err.as_str()), (0, ""));
}

#[test]
fn all_of_it_is_there() {
    let room = Room::new();
    let prefix = room.at("opt");
    install(&prefix);
    for name in INSTALLED {
        assert!(prefix.join(name).is_file(), "{name}");
    }
    let installed = run(Command::new(prefix.join("bin/hac")).arg("--version"));
    assert_eq!(installed.out, run(&mut hac(["--version"])).out);
}

#[test]
fn the_manual_says_what_help_says() {
    let room = Room::new();
    install(room.path());
    let page = fs::read_to_string(room.at("share/man/man1/hac.1")).expect("a page");
    let set = page.split_once("\n.nf\n").expect("the description").1;
    let set = set.strip_suffix(".fi\n").expect("its end");
    let plain = set
        .replace("\\-", "-")
        .replace("\\&", "")
        .replace("\\e", "\\");
    assert_eq!(plain, run(&mut hac(["--help"])).out);
}

#[test]
fn a_c_program_is_built_by_the_pkg_config_file() {
    let room = Room::new();
    install(room.path());
    let config = fs::read_to_string(room.at("lib/pkgconfig/hac.pc")).expect("a file");
    let value = |key: &str| {
        let line = config.lines().find_map(|line| line.strip_prefix(key));
        let prefix = room.path().to_str().expect("a plain name");
        let flags = line
            .expect("its line")
            .replace("${libdir}", "${prefix}/lib");
        let flags = flags.replace("${includedir}", "${prefix}/include");
        flags.replace("${prefix}", prefix)
    };
    let flags = format!("{} {}", value("Cflags: "), value("Libs: "));
    let program = room.put(
        "size.c",
        b"#include <hac.h>\nint main(void) { uint64_t a[HAC_CHECK_ENTRIES]; uint8_t f[1] = {0};\n\
          return hac_check(f, 0, a, HAC_CHECK_ENTRIES) == HAC_NO_MARK ? 0 : 1; }\n",
    );
    let built = room.at("size");
    let mut cc = Command::new("cc");
    let cc = cc.arg(program).args(flags.split_whitespace());
    assert_eq!(run(cc.arg("-o").arg(&built)).status, 0);
    assert_eq!(run(&mut Command::new(built)).status, 0);
}

/// What bash offers for the last of some words.
fn offered(room: &Room, words: &str) -> Vec<String> {
    let script = format!(
        "PATH={}/bin:$PATH; source {}/share/bash-completion/completions/hac; \
         COMP_WORDS=({words}); COMP_CWORD=$((${{#COMP_WORDS[@]}} - 1)); _hac; \
         printf '%s\\n' \"${{COMPREPLY[@]}}\"",
        room.path().display(),
        room.path().display()
    );
    let ran = run(Command::new("bash").args(["-c", &script]));
    ran.lines().into_iter().map(String::from).collect()
}

#[test]
fn bash_completes_commands_and_options() {
    let room = Room::new();
    install(room.path());
    assert_eq!(offered(&room, "hac che"), ["check"]);
    assert_eq!(offered(&room, "hac walk --b"), ["--back"]);
    assert!(offered(&room, "hac s").contains(&"settings".into()));
}
