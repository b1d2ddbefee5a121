//! The build script of the packages whose tests ask for tools: tells them which tools are there.

use std::process::Command;

/// Tools that a test needs and that may be missing: the cfg that the test asks for, and
/// commands of which one ends well where the tool is installed.
const TOOLS: [(&str, &[&[&str]]); 7] = [
    ("has_cxx", &[&["c++", "--version"]]),
    (
        "has_git_and_make",
        &[&["bash", "-c", "git --version && make --version"]],
    ),
    ("has_groff", &[&["groff", "--version"]]),
    (
        "has_libfuzzer",
        &[&["bash", "../../.ci/libfuzzer", "--installed"]],
    ),
    ("has_pkg_config", &[&["pkg-config", "--version"]]),
    (
        "has_renderer",
        &[
            &["rsvg-convert", "--version"],
            &["inkscape", "--version"],
            &["magick", "--version"],
        ],
    ),
    ("has_toulbar2", &[&["toulbar2", "-help"]]),
];

/// Whether a command can be started, in this folder, and ends well.
fn ends_well(words: &[&str]) -> bool {
    let output = Command::new(words[0]).args(&words[1..]).output();
    output.is_ok_and(|output| output.status.success())
}

/// Without its tool a test is ignored, and so named as ignored; it could otherwise only pass. What is
/// installed later counts once this runs again: after this file is touched.
fn main() {
    println!("cargo:rerun-if-changed=../tools.rs");
    println!("cargo:rerun-if-changed=../../.ci/libfuzzer");
    for (cfg, commands) in TOOLS {
        println!("cargo:rustc-check-cfg=cfg({cfg})");
        if commands.iter().any(|words| ends_well(words)) {
            println!("cargo:rustc-cfg={cfg}");
        }
    }
}
