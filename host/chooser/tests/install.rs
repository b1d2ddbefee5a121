//! What is installed: every file in its place, found by pkg-config, with one version, and without a
//! path of the machine that built it.

use std::fs;
use std::os::unix::fs::PermissionsExt;
use std::path::{Path, PathBuf};

use testing::chooser_run::{chooser, folder, run};
use testing::places::root;
use testing::scripts::{bash, must, printed};

/// The installed files below the prefix, with their modes; beside them is every header.
const FILES: [(&str, u32); 7] = [
    ("bin/chooser", 0o755),
    ("bin/list", 0o755),
    ("lib/libfrontier.a", 0o644),
    ("lib/pkgconfig/frontier.pc", 0o644),
    ("share/bash-completion/completions/chooser", 0o644),
    ("share/man/man1/chooser.1", 0o644),
    ("share/man/man1/list.1", 0o644),
];

/// Installs below a folder by a command line of the repository's root, with a umask that would
/// hide everything.
fn install(line: &str, settings: &[(&str, &str)]) {
    let chooser = chooser();
    let chooser = chooser.to_str().expect("a path of letters");
    let settings = [settings, &[("CHOOSER", chooser)]].concat();
    must(&root(), &format!("umask 077 && {line}"), &settings);
}

/// An empty folder, its name as text.
fn empty(name: &str) -> (PathBuf, String) {
    let folder = folder(name).canonicalize().expect("a folder");
    let name = folder.to_str().expect("a path of letters").to_string();
    (folder, name)
}

/// The version in the C header.
fn version() -> String {
    let header = fs::read_to_string(root().join("include/frontier.h")).expect("the header");
    let part = |name: &str| {
        let due = format!("#define FRONTIER_VERSION_{name} ");
        let line = header.lines().find_map(|line| line.strip_prefix(&due));
        line.expect("the version").to_string()
    };
    ["MAJOR", "MINOR", "PATCH"].map(part).join(".")
}

/// What a line `KEY: VALUE` or `KEY=VALUE` of a file for pkg-config gives.
fn given(text: &str, key: &str) -> String {
    let value = |line: &str| {
        let rest = line.strip_prefix(key)?;
        let rest = rest.strip_prefix(": ").or(rest.strip_prefix('='))?;
        Some(rest.to_string())
    };
    text.lines().find_map(value).expect("the key is there")
}

/// The headers, as `include/NAME.h`.
fn headers() -> Vec<String> {
    let listed = must(&root(), "find include -name '*.h'", &[]);
    listed.lines().map(String::from).collect()
}

fn assert_installed(prefix: &Path) {
    let headers = headers();
    let with_mode = headers.iter().map(|header| (header.as_str(), 0o644));
    for (file, mode) in FILES.into_iter().chain(with_mode) {
        let found = fs::metadata(prefix.join(file)).unwrap_or_else(|e| panic!("{file}: {e}"));
        assert_eq!(found.permissions().mode() & 0o777, mode, "{file}");
        assert!(found.len() > 0, "{file}");
    }
    let listed = must(prefix, "find . -type f", &[]);
    assert_eq!(
        listed.lines().count(),
        FILES.len() + headers.len(),
        "{listed}"
    );
    let copied = [
        ("target/staticlib/libfrontier.a", "lib/libfrontier.a"),
        ("target/bin/list", "bin/list"),
    ];
    let headers = headers
        .iter()
        .map(|header| (header.as_str(), header.as_str()));
    for (from, to) in copied.into_iter().chain(headers) {
        let [from, to] = [root().join(from), prefix.join(to)].map(|file| fs::read(file).unwrap());
        assert!(from == to);
    }
}

#[test]
fn every_file_is_in_its_place() {
    let (folder, name) = empty("install_script");
    install(
        "bash packaging/install",
        &[("DESTDIR", &name), ("PREFIX", "/opt/frontier")],
    );
    assert_installed(&folder.join("opt/frontier"));
    let file = folder.join("opt/frontier/lib/pkgconfig/frontier.pc");
    let text = fs::read_to_string(file).expect("frontier.pc");
    let due = [
        ("prefix", "/opt/frontier"),
        ("libdir", "${prefix}/lib"),
        ("includedir", "${prefix}/include"),
        ("Name", "frontier"),
        ("Version", &version()),
        ("Cflags", "-I${includedir}"),
        ("Libs", "-L${libdir} -lfrontier"),
    ];
    for (key, value) in due {
        assert_eq!(given(&text, key), value, "{key}");
    }
    assert!(!text.contains('@'), "{text}");
}

#[test]
#[cfg_attr(not(has_git_and_make), ignore = "git or make is not installed")]
fn make_install_hands_both_folders_on_and_builds_nothing() {
    let (folder, name) = empty("install_make");
    for tool in ["rt", "cargo"] {
        must(
            &folder,
            &format!("printf 'exit 1' >{tool} && chmod +x {tool}"),
            &[],
        );
    }
    let install_line = "make -s install CHOOSER=\"$CHOOSER\" PREFIX=/usr";
    install(
        &format!("PATH='{name}':$PATH {install_line} DESTDIR='{name}'"),
        &[],
    );
    assert_installed(&folder.join("usr"));
}

#[test]
fn what_is_missing_or_cannot_be_written_is_told() {
    let (_, name) = empty("install_missing");
    let missing = format!("{name}/no-chooser");
    for (settings, part) in [
        (
            [("CHOOSER", missing.as_str()), ("DESTDIR", name.as_str())],
            "no-chooser is missing; run 'make' first",
        ),
        (
            [("PREFIX", "usr"), ("DESTDIR", name.as_str())],
            "must begin with '/'",
        ),
    ] {
        let output = bash(&root(), "bash packaging/install", &settings);
        assert!(!output.status.success());
        assert!(printed(&output).contains(part), "{}", printed(&output));
    }
}

/// Builds the C example with what pkg-config tells, and runs it on an example.
fn assert_links(folder: &Path, settings: &[(&str, &str)]) {
    let source = root()
        .join("examples/link.c")
        .canonicalize()
        .expect("link.c");
    let line = format!(
        "cc -Wall -Werror '{}' $(pkg-config --cflags --libs frontier) -o link",
        source.display()
    );
    must(folder, &line, settings);
    let problem = root().join("examples/colours.bin");
    let problem = problem.canonicalize().expect("colours.bin");
    let listed = must(folder, &format!("./link '{}'", problem.display()), &[]);
    assert_eq!(listed, "1 4 : 0 0 1\n10 0 : 0 0 0\n");
    let told = must(folder, "pkg-config --modversion frontier", settings);
    assert_eq!(told.trim(), version());
}

#[test]
#[cfg_attr(not(has_pkg_config), ignore = "pkg-config is not installed")]
fn a_c_program_is_found_by_pkg_config() {
    let (folder, name) = empty("install_pkg_config");
    let prefix = format!("{name}/here");
    install("bash packaging/install", &[("PREFIX", &prefix)]);
    let path = format!("{prefix}/lib/pkgconfig");
    assert_links(&folder, &[("PKG_CONFIG_PATH", &path)]);
    // below another folder than the one that it will be used in
    install(
        "bash packaging/install",
        &[("PREFIX", "/usr"), ("DESTDIR", &name)],
    );
    let path = format!("{name}/usr/lib/pkgconfig");
    let settings = [
        ("PKG_CONFIG_LIBDIR", path.as_str()),
        ("PKG_CONFIG_SYSROOT_DIR", &name),
        // pkg-config leaves folders out that the compiler has anyway
        ("PKG_CONFIG_ALLOW_SYSTEM_CFLAGS", "1"),
        ("PKG_CONFIG_ALLOW_SYSTEM_LIBS", "1"),
    ];
    assert_links(&folder, &settings);
}

#[test]
#[cfg_attr(not(has_pkg_config), ignore = "pkg-config is not installed")]
fn an_unpacked_disc_is_found_wherever_it_is() {
    let (folder, name) = empty("install_disc");
    let first = format!("{name}/first");
    let settings = [
        ("DESTDIR", first.as_str()),
        ("PREFIX", "/"),
        ("PC_PREFIX", "${pcfiledir}/../.."),
    ];
    install("bash packaging/install", &settings);
    must(&folder, "mv first second", &[]);
    let path = format!("{name}/second/lib/pkgconfig");
    assert_links(&folder, &[("PKG_CONFIG_PATH", &path)]);
}

#[test]
fn the_command_and_the_header_have_one_version() {
    let told = run(&["--version"]).with(0);
    assert_eq!(told.text(), format!("chooser {}\n", version()));
}

#[test]
#[cfg_attr(debug_assertions, ignore = "a build for debugging names its sources")]
fn no_path_of_this_machine_is_in_what_is_installed() {
    let root = root().canonicalize().expect("the root");
    let path = root.to_str().expect("a path of letters").as_bytes();
    let built = ["target/bin/list", "target/staticlib/libfrontier.a"];
    for file in built
        .map(|file| root.join(file))
        .into_iter()
        .chain([chooser()])
    {
        let bytes = fs::read(&file).expect("it is built");
        let found = bytes.windows(path.len()).any(|part| part == path);
        assert!(
            !found,
            "{} names the folder that it was built in",
            file.display()
        );
    }
}
