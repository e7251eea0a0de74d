//! What both build scripts do: they copy the original's files from BBX_SRC into the output folder, and declare the
//! copies as modules.
//!
//! `#[path]` takes no environment variable and `include!` refuses a file that begins with `//!`: so the
//! declarations (modules.in) are written out with the output folder's absolute path in them.

use std::path::{Path, PathBuf};
use std::{env, fs, process};

/// A crate's own folder, the original's, and cargo's output folder.
pub struct Copying {
    pub home: PathBuf,
    pub source: PathBuf,
    pub out: PathBuf,
}

impl Copying {
    /// `oracle` leads from the crate's folder to the oracle's.
    pub fn begun(oracle: &str) -> Self {
        println!("cargo:rerun-if-env-changed=BBX_SRC");
        let home = PathBuf::from(env::var("CARGO_MANIFEST_DIR").unwrap());
        let source = source_folder(&home.join(oracle));
        Self { home, source, out: PathBuf::from(env::var("OUT_DIR").unwrap()) }
    }

    /// The bytes of a file, and where its copy lies.
    pub fn copied(&self, name: &str) -> (Vec<u8>, PathBuf) {
        let from = self.source.join(name);
        println!("cargo:rerun-if-changed={}", from.display());
        let Ok(text) = fs::read(&from) else {
            give_up(&format!("the original is not there: no file {}", from.display()));
        };
        let copy = write(&self.out.join("original").join(name), &text);
        (text, copy)
    }

    /// Writes modules.rs, which the crate includes: the modules, then what is told of the compiled files.
    pub fn declare(&self, told: &str) {
        let folder = self.out.to_str().expect("the output folder's path is no text");
        let modules = fs::read_to_string(self.home.join("modules.in")).unwrap().replace('@', folder);
        write(&self.out.join("modules.rs"), format!("{modules}\n{told}").as_bytes());
    }
}

pub fn write(path: &Path, bytes: &[u8]) -> PathBuf {
    fs::create_dir_all(path.parent().unwrap()).unwrap();
    fs::write(path, bytes).unwrap();
    path.to_path_buf()
}

/// BBX_SRC, or the place where the original lies beside the repository.
fn source_folder(oracle: &Path) -> PathBuf {
    match env::var_os("BBX_SRC").filter(|value| !value.is_empty()) {
        None => oracle.join("../../shared/docs/src"),
        Some(value) if Path::new(&value).is_absolute() => PathBuf::from(value),
        Some(_) => give_up("BBX_SRC must be an absolute path here (oracle/run makes it one)"),
    }
}

/// One plain line and no more: cargo fails the build for the line, not for the exit.
fn give_up(why: &str) -> ! {
    println!("cargo::error={why}");
    process::exit(0);
}
