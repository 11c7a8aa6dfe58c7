//! Links the static library named by GRIMHOLDI_LIBRARY.
//!
//! Only its `grimholdi_` names stay visible: whatever else it brings, such as
//! a panic handler, must not meet this program's own.

use std::env;
use std::path::Path;
use std::process::Command;

const ENTRIES: [&str; 24] = [
    "grimholdi_area_length",
    "grimholdi_new",
    "grimholdi_control",
    "grimholdi_poll",
    "grimholdi_start_split",
    "grimholdi_complete_split",
    "grimholdi_launch",
    "grimholdi_deliver",
    "grimholdi_line_event",
    "grimholdi_tick",
    "grimholdi_bus_reset",
    "grimholdi_why_control",
    "grimholdi_why_poll",
    "grimholdi_why_start_split",
    "grimholdi_why_complete_split",
    "grimholdi_why_launch",
    "grimholdi_why_deliver",
    "grimholdi_why_line_event",
    "grimholdi_why_tick",
    "grimholdi_why_bus_reset",
    "grimholdi_block_start",
    "grimholdi_block_add",
    "grimholdi_block_finish",
    "grimholdi_replay_block",
];

fn main() {
    println!("cargo:rerun-if-changed=build.rs");
    println!("cargo:rerun-if-env-changed=GRIMHOLDI_LIBRARY");
    let library = env::var("GRIMHOLDI_LIBRARY")
        .expect("GRIMHOLDI_LIBRARY must name the static library to compare with");
    println!("cargo:rerun-if-changed={library}");

    let folder = env::var("OUT_DIR").expect("cargo sets OUT_DIR");
    let object = Path::new(&folder).join("entries.o");

    let mut link = Command::new("ld");
    link.args(["-r", "--force-group-allocation", "-o"]).arg(&object);
    link.args(ENTRIES.iter().flat_map(|entry| ["-u", entry]));
    run(link.arg(&library));

    let mut hide = Command::new("objcopy");
    hide.args(ENTRIES.iter().flat_map(|entry| ["-G", entry]));
    run(hide.arg(&object));

    println!("cargo:rustc-link-arg-bins={}", object.display());
}

fn run(command: &mut Command) {
    let status = command.status();
    assert!(status.map_or(false, |status| status.success()), "failed: {command:?}");
}
