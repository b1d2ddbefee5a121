//! Compiling C and C++ as strictly as a careful project does, and linking the static library.

use std::fs;
use std::path::Path;
use std::process::Command;

use crate::places::root;

/// A compiler with the language and the standard that it is asked for.
#[derive(Clone, Copy)]
pub struct Compiler {
    command: &'static str,
    language: &'static str,
    pub standard: &'static str,
}

const fn c(standard: &'static str) -> Compiler {
    Compiler {
        command: "cc",
        language: "c",
        standard,
    }
}

const fn cxx(standard: &'static str) -> Compiler {
    Compiler {
        command: "c++",
        language: "c++",
        standard,
    }
}

pub const C99: Compiler = c("c99");
pub const C11: Compiler = c("c11");
pub const CXX11: Compiler = cxx("c++11");
pub const CXX17: Compiler = cxx("c++17");

impl Compiler {
    /// Compiles a source to an object file, every warning an error, with the headers of a folder. The
    /// error is what the compiler says.
    pub fn compile(&self, include: &Path, source: &Path, object: &Path) -> Result<(), String> {
        let mut command = self.strict(include, source);
        ended(command.arg("-c").arg("-o").arg(object), self.command)
    }

    /// The same to a program that has the static library in it.
    pub fn build(&self, include: &Path, source: &Path, program: &Path) -> Result<(), String> {
        let archive = root().join("target/staticlib/libfrontier.a");
        let mut command = self.strict(include, source);
        command.args(["-x", "none"]).arg(archive);
        ended(command.arg("-o").arg(program), self.command)
    }

    /// The command, up to the source.
    fn strict(&self, include: &Path, source: &Path) -> Command {
        let mut command = Command::new(self.command);
        command
            .arg(format!("-std={}", self.standard))
            .args(["-Wall", "-Wextra", "-Wpedantic", "-Werror"])
            .arg("-I")
            .arg(include)
            .args(["-x", self.language])
            .arg(source);
        command
    }
}

/// Runs a compiler.
fn ended(command: &mut Command, name: &str) -> Result<(), String> {
    let output = command.output();
    let output =
        output.unwrap_or_else(|error| panic!("{name} does not start: {error}; install it"));
    let complaint = String::from_utf8_lossy(&output.stderr).into_owned();
    output.status.success().then_some(()).ok_or(complaint)
}

/// Writes the header to a folder, with a number of its version (`MAJOR`, `PATCH`) that is one more.
pub fn write_later_header(folder: &Path, part: &str) {
    let header = fs::read_to_string(root().join("include/frontier.h")).expect("the header");
    let name = format!("#define FRONTIER_VERSION_{part} ");
    let (before, rest) = header.split_once(&name).expect("a version");
    let (number, after) = rest.split_once('\n').expect("the line's end");
    let later = number.parse::<u32>().expect("a number") + 1;
    let text = format!("{before}{name}{later}\n{after}");
    fs::write(folder.join("frontier.h"), text).expect("a file can be written");
}
