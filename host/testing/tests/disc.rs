//! Discs: the same files give the same bytes, whoever packs them, where and when; what was changed in
//! a disc is found and named; and a disc is held to what its commit gives when it is built again.

use std::fs;
use std::os::unix::fs::PermissionsExt;
use std::path::Path;

use testing::chooser_run::{folder, Apart};
use testing::places::root;
use testing::scripts::{bash, must, printed};

/// The files of a small disc: their paths, texts and modes. Their order differs between languages.
const FILES: [(&str, &str, u32); 5] = [
    ("README.md", "read me\n", 0o644),
    ("bin/tool", "#!/bin/sh\n", 0o755),
    ("docs/B.md", "bytes\n", 0o644),
    ("docs/_c.md", "calls\n", 0o644),
    ("docs/a.md", "answers\n", 0o644),
];

/// The first lines of its MANIFEST.
const HEAD: &str = "name: small\ncommit: none\n";

/// What somebody else has set, and may not change a byte.
const OTHER_SETTINGS: [(&str, &str); 4] = [
    ("LC_ALL", "en_US.UTF-8"),
    ("LANG", "de_DE.UTF-8"),
    ("TZ", "Asia/Tokyo"),
    ("TAR_OPTIONS", "--exclude=*.md"),
];

/// A script of the folder `packaging/`.
fn script(name: &str) -> String {
    let root = root().canonicalize().expect("the root");
    format!("bash '{}/packaging/{name}'", root.display())
}

/// Writes the files of the small disc into a new folder `tree`, without the bits of `umask` in their modes.
fn write_tree(folder: &Path, umask: u32) {
    for (path, text, mode) in FILES {
        let file = folder.join("tree").join(path);
        fs::create_dir_all(file.parent().expect("a folder")).expect("a folder can be made");
        fs::write(&file, text).expect("a file can be written");
        let mode = fs::Permissions::from_mode(mode & !umask);
        fs::set_permissions(&file, mode).expect("a mode can be set");
    }
}

/// The command line that packs the folder `tree` to the folder `out`.
fn pack_line() -> String {
    format!("printf '{HEAD}' | {} tree small 86400 out", script("pack"))
}

/// A folder with a small disc in `out/`, and its tree.
fn packed(name: &str) -> Apart {
    let folder = Apart::new(name);
    write_tree(&folder, 0);
    must(&folder, &pack_line(), &[]);
    folder
}

/// What the check prints that builds nothing again, and whether it ended well.
fn checked(disc: &Path) -> (bool, String) {
    let line = format!("{} '{}'", script("check-disc"), disc.display());
    let output = bash(&root(), &line, &[("REBUILD", "no")]);
    (output.status.success(), printed(&output))
}

#[test]
fn two_folders_give_the_same_bytes() {
    let one = packed("disc_one");
    let other = folder("disc_other").join("in/a/deeper/folder");
    fs::create_dir_all(&other).expect("a folder can be made");
    write_tree(&other, 0o077);
    must(&other, "find tree -exec touch -d 2001-02-03 {} +", &[]);
    let line = format!("umask 077 && {}", pack_line());
    must(&other, &line, &OTHER_SETTINGS);
    for file in ["out/small.tar", "out/SHA256SUMS"] {
        let [first, second] = [&*one, &other].map(|folder| fs::read(folder.join(file)));
        assert!(first.expect("a file") == second.expect("a file"), "{file}");
    }
}

#[test]
fn a_disc_has_fixed_times_owners_modes_and_order() {
    let folder = packed("disc_listed");
    let listed = must(&folder, "tar -tvf out/small.tar", &[("TZ", "UTC")]);
    let rows: Vec<Vec<&str>> = listed
        .lines()
        .map(|line| line.split_whitespace().collect())
        .collect();
    for row in &rows {
        assert_eq!(row[1..2], ["0/0"], "{row:?}");
        assert_eq!(row[3..5], ["1970-01-02", "00:00"], "{row:?}");
        let due = match row[5] {
            "small/bin/tool" => "-rwxr-xr-x",
            path if path.ends_with('/') => "drwxr-xr-x",
            _ => "-rw-r--r--",
        };
        assert_eq!(row[0], due, "{row:?}");
    }
    let files: Vec<&str> = rows.iter().map(|row| row[5]).collect();
    let due = [
        "",
        "MANIFEST",
        "README.md",
        "bin/",
        "bin/tool",
        "docs/",
        "docs/B.md",
        "docs/_c.md",
        "docs/a.md",
    ];
    assert_eq!(files, due.map(|path| format!("small/{path}")));
}

#[test]
fn the_manifest_has_the_digest_and_length_of_every_file() {
    let folder = packed("disc_manifest");
    let manifest = must(&folder, "tar -xOf out/small.tar small/MANIFEST", &[]);
    let (head, list) = manifest
        .split_once("\ndigest (SHA-256), length in bytes, file\n")
        .expect("the list's first line");
    assert_eq!(head, HEAD);
    let digests = must(
        &folder.join("tree"),
        "sha256sum README.md bin/tool docs/B.md docs/_c.md docs/a.md",
        &[],
    );
    assert_eq!(list.lines().count(), FILES.len());
    for ((line, digest), (path, text, _)) in list.lines().zip(digests.lines()).zip(FILES) {
        let words: Vec<&str> = line.split_whitespace().collect();
        let digest = digest.split_whitespace().next().expect("a digest");
        assert_eq!(words, [digest, &text.len().to_string(), path]);
    }
}

#[test]
fn a_changed_byte_a_missing_and_an_extra_file_are_named() {
    let cases = [
        ("true", &[][..]),
        ("printf b >small/docs/B.md", &["docs/B.md is changed"]),
        (
            "printf 'Bytes\\n' >small/docs/B.md",
            &["docs/B.md is changed"],
        ),
        ("rm small/bin/tool", &["bin/tool is missing"]),
        ("touch small/bin/list", &["bin/list is one too many"]),
        ("touch 'small/a b'", &["a b is one too many"]),
        (
            "ln -s a.md small/docs/z.md",
            &["docs/z.md is neither file nor folder"],
        ),
        (
            "rm small/docs/a.md && ln -s B.md small/docs/a.md",
            &[
                "docs/a.md is changed",
                "docs/a.md is neither file nor folder",
            ],
        ),
        (
            "mv small/docs/a.md small/",
            &["docs/a.md is missing", "a.md is one too many"],
        ),
        (
            "rm small/MANIFEST",
            &["must hold one folder with a MANIFEST"],
        ),
        (
            "sed -i '/B.md/d' small/MANIFEST",
            &["docs/B.md is one too many"],
        ),
    ];
    for (i, (change, parts)) in cases.into_iter().enumerate() {
        let folder = packed(&format!("disc_changed_{i}"));
        let line = format!("tar -xf out/small.tar && {change} && tar -cf small.tar small");
        must(&folder, &line, &[]);
        let (well, told) = checked(&folder.join("small.tar"));
        assert_eq!(well, parts.is_empty(), "{change}: {told}");
        for part in parts {
            assert!(told.contains(part), "{change}: no '{part}' in {told}");
        }
        let differences = told.matches("DIFFERS").count();
        let due = parts.iter().filter(|part| part.contains(" is ")).count();
        assert_eq!(differences, due, "{change}: {told}");
    }
}

#[test]
fn a_byte_changed_in_the_archive_is_found_twice() {
    let folder = packed("disc_byte");
    let disc = folder.join("out/small.tar");
    assert!(checked(&disc).0);
    let mut bytes = fs::read(&disc).expect("the disc");
    let at = bytes.windows(8).position(|part| part == b"answers\n");
    bytes[at.expect("the text of docs/a.md")] ^= 1;
    fs::write(&disc, bytes).expect("the disc can be written");
    let (well, told) = checked(&disc);
    assert!(!well, "{told}");
    assert!(
        told.contains("small.tar has another digest than in SHA256SUMS"),
        "{told}"
    );
    assert!(told.contains("docs/a.md is changed"), "{told}");
}

#[test]
fn a_disc_without_a_commit_cannot_be_built_again() {
    let folder = packed("disc_no_commit");
    let output = bash(
        &folder,
        &format!("{} out/small.tar", script("check-disc")),
        &[],
    );
    let told = printed(&output);
    assert!(!output.status.success(), "{told}");
    assert!(
        told.contains("the MANIFEST names no commit, but 'none'"),
        "{told}"
    );
}

#[test]
fn what_is_no_disc_is_told() {
    let folder = folder("disc_none");
    let disc = folder.join("small.tar");
    let (well, told) = checked(&disc);
    assert!(!well && told.contains("there is no file"), "{told}");
    fs::write(&disc, "no archive").expect("a file can be written");
    let (well, told) = checked(&disc);
    assert!(!well && told.contains("is no whole tar archive"), "{told}");
    write_tree(&folder, 0);
    must(&folder, "touch 'tree/a name'", &[]);
    let refused = bash(&folder, &pack_line(), &[]);
    assert!(!refused.status.success());
    assert!(printed(&refused).contains("a name is neither file nor folder, or has other signs"));
}

/// A repository of its own with the scripts, whose disc is the small one.
fn small_repository(name: &str) -> Apart {
    let folder = Apart::new(name);
    write_tree(&folder, 0);
    let makefile = "disc:\n\t@printf 'name: small\\ncommit: %s\\nkit: another kit\\n' \
                    \"$$(git rev-parse HEAD)\" | bash packaging/pack tree small 0 target/disc\n";
    fs::write(folder.join("Makefile"), makefile).expect("a file can be written");
    fs::write(folder.join(".gitignore"), "target/\n").expect("a file can be written");
    let scripts = root().canonicalize().expect("the root");
    let scripts = scripts.display();
    must(
        &folder,
        &format!("cp -R '{scripts}/packaging' '{scripts}/include' ."),
        &[],
    );
    let commit = "git init -q . && git add -A && \
                  git -c user.name=test -c user.email=test@localhost commit -q -m 'A small disc'";
    must(&folder, commit, &[]);
    folder
}

#[test]
#[cfg_attr(not(has_git_and_make), ignore = "git or make is not installed")]
fn a_disc_is_held_to_what_its_commit_gives() {
    let folder = small_repository("disc_built");
    let check = "bash packaging/check-disc target/disc/small.tar";
    must(&folder, "make disc", &[]);
    let told = must(&folder, check, &[]);
    for part in [
        "gives the same disc, byte for byte",
        "and the disc was made with 'another kit'",
    ] {
        assert!(told.contains(part), "{told}");
    }
    // with digests of its own, and yet not what the commit gives
    must(
        &folder,
        "printf 'read you\\n' >tree/README.md && make disc",
        &[],
    );
    let output = bash(&folder, check, &[]);
    let told = printed(&output);
    assert!(!output.status.success(), "{told}");
    assert!(
        told.contains("README.md is the first file that differs"),
        "{told}"
    );
    // the same files with another time
    let line = "git stash -q && sed -i 's/small 0/small 1/' Makefile && make disc";
    must(&folder, line, &[]);
    let told = printed(&bash(&folder, check, &[]));
    assert!(
        told.contains("all files are the same, and the archives differ"),
        "{told}"
    );
}

#[test]
#[cfg_attr(not(has_git_and_make), ignore = "git or make is not installed")]
fn a_disc_of_what_is_not_committed_is_refused() {
    let folder = small_repository("disc_dirty");
    fs::write(folder.join("tree/new.md"), "new\n").expect("a file can be written");
    let output = bash(&folder, "bash packaging/disc", &[]);
    let told = printed(&output);
    assert!(!output.status.success(), "{told}");
    for part in ["not committed", "?? tree/new.md", "git stash -u"] {
        assert!(told.contains(part), "{told}");
    }
}
