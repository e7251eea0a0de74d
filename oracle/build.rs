//! Copies the original's files from BBX_SRC into the output folder and declares the copies as modules (copying.rs).

mod copying;

use std::fs;
use std::path::Path;

use copying::{write, Copying};

/// The original's files, one a line after its checksum: the one list that this script and `available` read.
const LIST: &str = include_str!("original.sha256");

/// The files that are compiled a second time, with the lines of ours that open their private fields.
const OPENED: [&str; 5] = [
    "bbx_dsp/src/phase.rs",
    "bbx_dsp/src/voice.rs",
    "bbx_dsp/src/blocks/generators/oscillator.rs",
    "bbx_dsp/src/blocks/modulators/envelope.rs",
    "bbx_dsp/src/blocks/modulators/lfo.rs",
];

fn main() {
    for ours in ["build.rs", "copying.rs", "modules.in", "original.sha256", "openings"] {
        println!("cargo:rerun-if-changed={ours}");
    }
    // The original's own switch, which stays off here: only the lanes (lanes/) are compiled with it.
    println!("cargo:rustc-check-cfg=cfg(feature, values(\"simd\"))");

    let copying = Copying::begun(".");
    let mut table = String::new();
    for name in LIST.lines().filter_map(|line| line.split_whitespace().nth(1)) {
        let (text, copy) = copying.copied(name);
        table.push_str(&format!("    ({name:?}, include_bytes!({copy:?}), "));
        if OPENED.contains(&name) {
            let opening_path = copying.home.join("openings").join(Path::new(name).file_name().unwrap());
            let opening = fs::read(&opening_path).expect("an opening of ours is missing");
            let longer = write(&copying.out.join("opened").join(name), &[text, opening].concat());
            table.push_str(&format!("Some(include_bytes!({longer:?}) as &[u8])),\n"));
        } else {
            table.push_str("None),\n");
        }
    }
    copying.declare(&format!(
        "/// Where the files were copied from.\npub const SOURCE: &str = {:?};\n\
         /// Every compiled file: its name, its bytes, and those of its opened copy.\n\
         pub const COMPILED: &[(&str, &[u8], Option<&[u8]>)] = &[\n{table}];\n",
        copying.source
    ));
}
