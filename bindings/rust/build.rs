//! Gets the engine into the program. BARRIER_LIB_DIR, a whole path, names the
//! folder of its archive; without it the engine's C is compiled here, by the C
//! compiler as a command. README.md says which compiler that is.
//!
//! What a build script of a package that depends on this one is told is in
//! DEP_BARRIER_ENGINE_FROM ("archive" or "c"), DEP_BARRIER_ENGINE_LIB (the folder
//! of the archive) and DEP_BARRIER_ENGINE_INCLUDE (that of barrier.h).

use std::env;
use std::ffi::OsString;
use std::fs;
use std::path::{Path, PathBuf};
use std::process::{exit, Command};

/// Why a build cannot go on.
type Words = String;

fn main() {
    let linked = match variable("BARRIER_LIB_DIR") {
        Some(folder) => link_archive(Path::new(&folder)),
        None => link_c(),
    };
    if let Err(words) = linked {
        eprintln!("{words}");
        exit(1);
    }
}

fn link_archive(folder: &Path) -> Result<(), Words> {
    let name = archive_name(&target());
    let archive = folder.join(name);
    let shown = folder.display();
    // A build script runs in its package's folder, wherever cargo was called.
    if !folder.is_absolute() {
        return Err(format!(
            "BARRIER_LIB_DIR has to be a whole path, not '{shown}'.\n{OTHERWISE_C}"
        ));
    }
    if !archive.is_file() {
        return Err(format!(
            "The engine's archive, {name}, is not there. Looked in\n    {shown}\n\
             (BARRIER_LIB_DIR). Name the folder that has it, as a whole path:\n    \
             BARRIER_LIB_DIR=/whole/path cargo build\n{OTHERWISE_C}"
        ));
    }
    println!("cargo:rerun-if-changed={}", archive.display());
    link(folder, "archive");
    Ok(())
}

const OTHERWISE_C: &str = "Without BARRIER_LIB_DIR the engine's C is compiled.";

fn link_c() -> Result<(), Words> {
    let target = target();
    let [code, header] = sources().ok_or(NO_SOURCES)?;
    for file in [&code, &header] {
        println!("cargo:rerun-if-changed={}", file.display());
    }
    let folder = PathBuf::from(given_by_cargo("OUT_DIR"));
    let object = folder.join("barrier_engine.o");
    let archive = folder.join(archive_name(&target));
    let tools = Tools::of(&target)?;
    tools.compile(&target, &code, &header, &object)?;
    tools.archive(&object, &archive)?;
    link(&folder, "c");
    Ok(())
}

fn link(folder: &Path, from: &str) {
    println!("cargo:rustc-link-search=native={}", folder.display());
    println!("cargo:rustc-link-lib=static=barrier_engine");
    println!("cargo:from={from}");
    println!("cargo:lib={}", folder.display());
    if let Some(include) = sources().as_ref().and_then(|[_, header]| header.parent()) {
        println!("cargo:include={}", include.display());
    }
}

/// The engine's C and its header: in this crate's own folder `c`, where they were
/// put there, else two folders up, where the engine is delivered.
fn sources() -> Option<[PathBuf; 2]> {
    let here = PathBuf::from(given_by_cargo("CARGO_MANIFEST_DIR"));
    let own = ["c/barrier_engine.c", "c/barrier.h"];
    let delivered = ["../../portable/barrier_engine.c", "../../include/barrier.h"];
    let found = [own, delivered].map(|files| files.map(|file| here.join(file)));
    let mut found = found.into_iter();
    found.find(|files| files.iter().all(|file| file.is_file()))
}

const NO_SOURCES: &str =
    "The engine's C is not there: neither c/barrier_engine.c and c/barrier.h in this crate's \
     folder,\nnor portable/barrier_engine.c and include/barrier.h two folders up. Copy the two \
     files into c, or link\nthe engine's archive: BARRIER_LIB_DIR=/whole/path cargo build";

/// A command, with the arguments that always go with it.
struct Tool {
    program: String,
    arguments: Vec<String>,
}

impl Tool {
    /// `gcc`, `ccache gcc`, `gcc -m32`; a path with spaces where such a file is.
    fn of(text: &str) -> Tool {
        let mut words = vec![text];
        if !Path::new(text).is_file() {
            words = text.split_whitespace().collect();
        }
        let mut words = words.into_iter().map(String::from);
        Tool {
            program: words.next().unwrap_or_default(),
            arguments: words.collect(),
        }
    }

    /// Whether its file has one of these names, whatever its folder and ending.
    fn is_one_of(&self, names: &[&str]) -> bool {
        let stem = Path::new(&self.program).file_stem();
        let stem = stem.unwrap_or_default().to_string_lossy().to_lowercase();
        names.contains(&stem.as_str())
    }

    fn run(&self, arguments: Vec<OsString>) -> Result<(), Words> {
        let mut command = Command::new(&self.program);
        command.args(&self.arguments).args(arguments);
        let ended = match command.output() {
            Ok(ended) => ended,
            Err(error) => return Err(format!("'{}' cannot be run: {error}.", self.program)),
        };
        if ended.status.success() {
            return Ok(());
        }
        let said = [ended.stdout, ended.stderr].concat();
        let said = String::from_utf8_lossy(&said);
        Err(format!("{command:?} failed, {}.\n{said}", ended.status))
    }
}

/// The C compiler and the archiver.
struct Tools {
    cc: Tool,
    ar: Tool,
}

impl Tools {
    fn of(target: &str) -> Result<Tools, Words> {
        let usual = usual_tools(target, &given_by_cargo("HOST"));
        let [cc, ar] = match usual {
            Some(names) => names.map(Some),
            None => [None, Some("ar".into())],
        };
        let cc = named_for(target, "CC").or(cc);
        let ar = named_for(target, "AR").or(ar);
        match (cc, ar) {
            (Some(cc), Some(ar)) => Ok(Tools {
                cc: Tool::of(&cc),
                ar: Tool::of(&ar),
            }),
            _ => Err(format!(
                "No name of a C compiler for {target} is known here.\n{}",
                remedy(target)
            )),
        }
    }

    fn compile(
        &self,
        target: &str,
        code: &Path,
        header: &Path,
        object: &Path,
    ) -> Result<(), Words> {
        let include = header.parent().unwrap_or(Path::new("."));
        let mut arguments: Vec<OsString> = vec![];
        if self.cc.is_one_of(&["cl", "clang-cl"]) {
            arguments.extend(["/nologo", "/O2", runtime(), "/c"].map(OsString::from));
            arguments.extend([joined("/I", include), joined("/Fo", object)]);
        } else {
            arguments.extend(["-std=c99", "-O2"].map(OsString::from));
            // On Windows all code can be placed anywhere, and gcc says so.
            if !target.contains("windows") {
                arguments.push("-fPIC".into());
            }
            arguments.extend([
                joined("-I", include),
                "-c".into(),
                "-o".into(),
                object.into(),
            ]);
        }
        let own = named_for(target, "CFLAGS").unwrap_or_default();
        arguments.extend(own.split_whitespace().map(OsString::from));
        // Or it would take a file below /Users for the option /U.
        if self.cc.is_one_of(&["clang-cl"]) {
            arguments.push("--".into());
        }
        arguments.push(code.into());
        let compiled = self.cc.run(arguments);
        compiled.map_err(|words| {
            let remedy = remedy(target);
            format!("The engine's C could not be compiled: {words}\n{remedy}")
        })
    }

    fn archive(&self, object: &Path, archive: &Path) -> Result<(), Words> {
        // An archiver adds to an archive that is there.
        let _ = fs::remove_file(archive);
        let arguments = if self.ar.is_one_of(&["lib", "llvm-lib"]) {
            vec!["/nologo".into(), joined("/OUT:", archive), object.into()]
        } else {
            vec!["rcs".into(), archive.into(), object.into()]
        };
        let made = self.ar.run(arguments);
        made.map_err(|words| {
            format!("The engine's archive could not be made: {words}\nName the archiver: AR=..")
        })
    }
}

fn joined(option: &str, path: &Path) -> OsString {
    let mut argument = OsString::from(option);
    argument.push(path);
    argument
}

/// The C library that rustc links with Microsoft's tools.
fn runtime() -> &'static str {
    let features = env::var("CARGO_CFG_TARGET_FEATURE").unwrap_or_default();
    match features.split(',').any(|feature| feature == "crt-static") {
        true => "/MT",
        false => "/MD",
    }
}

fn remedy(target: &str) -> Words {
    let underscored = target.replace('-', "_");
    format!(
        "Name a C compiler, CC=.. or for this target only CC_{underscored}=..,\n\
         or link the engine's archive: BARRIER_LIB_DIR=/whole/path cargo build"
    )
}

/// The compiler and the archiver where the environment names none.
fn usual_tools(target: &str, host: &str) -> Option<[String; 2]> {
    let names = match (target.ends_with("-msvc"), host.contains("windows")) {
        (true, true) => ["cl", "lib"],
        (true, false) => ["clang-cl", "llvm-lib"],
        (false, true) if target == host => ["gcc", "ar"],
        (false, false) if target == host => ["cc", "ar"],
        _ => {
            let system = cross_system(target)?;
            return Some(["gcc", "ar"].map(|tool| format!("{system}-{tool}")));
        }
    };
    Some(names.map(String::from))
}

/// What stands before -gcc in a cross compiler's name: aarch64-linux-gnu for
/// aarch64-unknown-linux-gnu.
fn cross_system(target: &str) -> Option<String> {
    let parts: Vec<&str> = target.split('-').collect();
    match parts[..] {
        [processor, "pc", "windows", "gnu"] => Some(format!("{processor}-w64-mingw32")),
        [processor, _, "linux", abi] => Some(format!("{}-linux-{abi}", in_c(processor))),
        _ => None,
    }
}

/// A processor, by the name that C compilers have for it.
fn in_c(processor: &str) -> &str {
    match processor {
        "riscv64gc" => "riscv64",
        "i586" => "i686",
        _ if processor.starts_with("arm") || processor.starts_with("thumb") => "arm",
        _ => processor,
    }
}

/// What the environment has for this target: CC_aarch64-unknown-linux-gnu, the
/// same with underscores, TARGET_CC, CC; the first that is not empty.
fn named_for(target: &str, what: &str) -> Option<String> {
    let underscored = target.replace('-', "_");
    let names = [
        format!("{what}_{target}"),
        format!("{what}_{underscored}"),
        format!("TARGET_{what}"),
        what.into(),
    ];
    let texts = names.iter().filter_map(|name| variable(name));
    let mut texts = texts.map(|text| text.to_string_lossy().trim().to_string());
    texts.find(|text| !text.is_empty())
}

/// A variable of the environment; where it changes, this script is run again.
fn variable(name: &str) -> Option<OsString> {
    println!("cargo:rerun-if-env-changed={name}");
    env::var_os(name)
}

fn given_by_cargo(name: &str) -> String {
    env::var(name).unwrap_or_else(|error| {
        eprintln!("{name}, which cargo gives: {error}");
        exit(1)
    })
}

fn target() -> String {
    given_by_cargo("TARGET")
}

fn archive_name(target: &str) -> &'static str {
    match target.ends_with("-msvc") {
        true => "barrier_engine.lib",
        false => "libbarrier_engine.a",
    }
}
