//! Links the archive of the verified reader, and takes the size of a book from the C header, where
//! alone it stands.

use std::path::{Path, PathBuf};
use std::process::ExitCode;
use std::{env, fs};

const HEADER: &str = "../painterend.h";
const FOLDER: &str = "PAINTEREND_LIB";
const ARCHIVE: &str = "libhost.a";

fn main() -> ExitCode {
    match link_archive().and_then(|()| write_size()) {
        Ok(()) => ExitCode::SUCCESS,
        Err(error) => {
            eprintln!("{error}");
            ExitCode::FAILURE
        }
    }
}

fn link_archive() -> Result<(), String> {
    println!("cargo:rerun-if-env-changed={FOLDER}");
    let folder = env::var_os(FOLDER).map(PathBuf::from).ok_or_else(|| {
        format!(
            "{FOLDER} is not set: it names the folder of {ARCHIVE}, \
             target/staticlib after `hosts/archive`"
        )
    })?;
    let archive = folder.join(ARCHIVE);
    println!("cargo:rerun-if-changed={}", archive.display());
    if !archive.is_file() {
        return Err(format!(
            "{FOLDER} is {}, and there is no {ARCHIVE} in it \
             (a relative path counts from the crate's folder)",
            folder.display()
        ));
    }
    println!("cargo:rustc-link-search=native={}", folder.display());
    println!("cargo:rustc-link-lib=static=host");
    Ok(())
}

fn write_size() -> Result<(), String> {
    println!("cargo:rerun-if-changed={HEADER}");
    let header = fs::read_to_string(HEADER).map_err(|error| format!("{HEADER}: {error}"))?;
    let size = size_in(&header).ok_or_else(|| format!("{HEADER} has no PAINTEREND_BOOK_BYTES"))?;
    let folder = env::var_os("OUT_DIR").ok_or("cargo names no OUT_DIR")?;
    let text = format!("/// How large a state is.\npub const BOOK_BYTES: usize = {size};\n");
    fs::write(Path::new(&folder).join("size.rs"), text).map_err(|error| error.to_string())
}

fn size_in(header: &str) -> Option<usize> {
    header
        .lines()
        .find_map(|line| line.strip_prefix("#define PAINTEREND_BOOK_BYTES "))
        .and_then(|number| number.trim().parse().ok())
}
