//! Links the archive of the proved responder and message library: the one in TAXEEDHUUL_ARCHIVE, or the one that
//! .ci/archive leaves in ../target, for this processor. Without it the program is still built, with the hand-written
//! ones alone, and says what is missing.
//! With the feature `asn1c` it also makes asn1c's decoder of asn1/rc004.asn1, by asn1c, gcc and ar, and links it.

use std::env;
use std::fs;
use std::path::{Path, PathBuf};
use std::process::{exit, Command, Stdio};

fn main() {
    let package = PathBuf::from(env::var("CARGO_MANIFEST_DIR").expect("cargo gives it"));
    println!("cargo:rerun-if-changed=build.rs");
    link_proved(&archive_folder(&package));
    if env::var_os("CARGO_FEATURE_ASN1C").is_some() {
        link_decoder(&package);
    }
}

fn archive_folder(package: &Path) -> PathBuf {
    println!("cargo:rerun-if-env-changed=TAXEEDHUUL_ARCHIVE");
    if let Some(folder) = env::var_os("TAXEEDHUUL_ARCHIVE") {
        return PathBuf::from(folder);
    }
    let processor = env::var("CARGO_CFG_TARGET_ARCH").expect("cargo gives it");
    match processor.as_str() {
        "x86_64" => package.join("../target/staticlib"),
        _ => package.join("../target/native"),
    }
}

fn link_proved(directory: &Path) {
    let archive = directory.join("libcapi.a");
    println!("cargo:rerun-if-changed={}", archive.display());
    println!("cargo:rustc-check-cfg=cfg(proved)");
    if archive.is_file() {
        println!("cargo:rustc-cfg=proved");
        println!("cargo:rustc-link-search=native={}", directory.display());
        println!("cargo:rustc-link-lib=static=capi");
    }
}

/// Makes the decoder in a new directory, as asn1c leaves what it finds there.
fn link_decoder(package: &Path) {
    let source = package.join("asn1");
    println!("cargo:rerun-if-changed={}", source.display());
    println!("cargo:rerun-if-changed=../include/taxeedhuul.h");
    let out = env::var("OUT_DIR").expect("cargo gives it");
    let directory = Path::new(&out).join("asn1c");
    let _ = fs::remove_dir_all(&directory);
    fs::create_dir_all(&directory).expect("a new directory");
    let run = |command: &mut Command| run(command.current_dir(&directory));
    let asn1c = ["-gen-PER", "-fcompound-names"];
    run(Command::new("asn1c")
        .args(asn1c)
        .arg(source.join("rc004.asn1")));
    let mut sources = files(&directory, "c");
    sources.retain(|file| !file.ends_with("converter-sample.c"));
    sources.push(source.join("answer.c"));
    let gcc = ["-O3", "-w", "-c", "-I.", "-I"];
    let include = package.join("../include");
    run(Command::new("gcc").args(gcc).arg(include).args(sources));
    run(Command::new("ar")
        .args(["rcs", "librc004.a"])
        .args(files(&directory, "o")));
    println!("cargo:rustc-link-search=native={}", directory.display());
    println!("cargo:rustc-link-lib=static=rc004");
}

fn files(directory: &Path, ending: &str) -> Vec<PathBuf> {
    let entries = fs::read_dir(directory).expect("a directory");
    let paths = entries.map(|entry| entry.expect("an entry").path());
    paths
        .filter(|path| path.extension().is_some_and(|it| it == ending))
        .collect()
}

/// Runs a program whose output is wanted only if it fails; ends the build if it does.
fn run(command: &mut Command) {
    let name = command.get_program().to_string_lossy().into_owned();
    match command.stdin(Stdio::null()).output() {
        Ok(output) if output.status.success() => {}
        Ok(output) => {
            eprintln!(
                "{name} failed:\n{}",
                String::from_utf8_lossy(&output.stderr)
            );
            exit(1);
        }
        Err(error) => {
            eprintln!("the feature asn1c needs the programs asn1c, gcc and ar: {name}: {error}");
            exit(1);
        }
    }
}
