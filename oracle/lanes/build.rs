//! Copies two of the original's files from BBX_SRC into the output folder and declares the copies as modules
//! (copying.rs).

#[path = "../copying.rs"]
mod copying;

/// The file of the lanes, and the one that it uses.
const FILES: [&str; 2] = ["bbx_dsp/src/polyblep.rs", "bbx_core/src/math.rs"];

fn main() {
    for ours in ["build.rs", "../copying.rs", "modules.in"] {
        println!("cargo:rerun-if-changed={ours}");
    }
    let copying = copying::Copying::begun("..");
    let line = |name| format!("    ({name:?}, include_bytes!({:?})),\n", copying.copied(name).1);
    let table: String = FILES.into_iter().map(line).collect();
    copying.declare(&format!(
        "/// Every compiled file: its name and its bytes.\npub const COMPILED: &[(&str, &[u8])] = &[\n{table}];\n"
    ));
}
