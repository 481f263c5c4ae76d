//! Reads the original sources, makes the patched copies in OUT_DIR, and writes the module list that src/lib.rs includes.

use std::path::{Path, PathBuf};
use std::{env, fs, process};

/// A change by its name: the first text stands exactly once and becomes the second.
type Patch = (&'static str, &'static str, &'static str);

const FACTOR: &str = "crate::factors::slide_factor(ch.command, ch.info)";
/// The three places where `enter_row` works out a pitch ask the bridge, which has the channel's transposition.
const PLAYER: &[Patch] = &[
    (
        "transposition",
        "    pub voice_global_vol: u8,\n}",
        "    pub voice_global_vol: u8,\n    pub transposition: i8,\n}",
    ),
    (
        "transposition-of-a-fresh-channel",
        "            voice_global_vol: 64,\n        }\n",
        "            voice_global_vol: 64,\n            transposition: 0,\n        }\n",
    ),
    (
        "pitch-of-a-note",
        "note_to_frequency(cell.note, c5)",
        "bridge::frequency(cell.note, ch.transposition, c5)",
    ),
    (
        "pitch-of-a-slide-without-a-note",
        "note_to_frequency(ch.last_note, c5)",
        "bridge::frequency(ch.last_note, ch.transposition, c5)",
    ),
    (
        "pitch-of-a-finetune",
        "note_to_frequency(ch.last_note, new_c5)",
        "bridge::frequency(ch.last_note, ch.transposition, new_c5)",
    ),
    ("fine-slide-down", "2.0f32.powf(-amount * scale / 768.0)", FACTOR),
    ("fine-slide-up", "2.0f32.powf(amount * scale / 768.0)", FACTOR),
    ("retrigger-on-tick-0", "Self::apply_retrigger(ch);", ""),
    (
        "tremor-on-tick-0",
        "for the procedure.\n                    Self::apply_tremor_step(ch, x, y);",
        "for the procedure.",
    ),
];
const HEADER: &[Patch] = &[("error-type", "use oxideav_core::", "use crate::oxideav_core::")];

/// The modules taken over, each with its patches.
const MODULES: &[(&str, &[Patch])] = &[("header", HEADER), ("opl2", &[]), ("pattern", &[]), ("player", PLAYER)];

fn main() {
    if let Err(why) = build() {
        eprintln!("oracle: {why}");
        process::exit(1);
    }
}

fn build() -> Result<(), String> {
    println!("cargo::rerun-if-env-changed=LOMQASHE_ORIGINAL");
    println!("cargo::rerun-if-changed=build.rs");
    let place = |name| {
        env::var(name)
            .map(PathBuf::from)
            .map_err(|why| format!("{name}: {why}"))
    };
    let (out, home) = (place("OUT_DIR")?, place("CARGO_MANIFEST_DIR")?);
    let original = place("LOMQASHE_ORIGINAL").unwrap_or(home.join("../../shared/docs/src"));
    let mut list = String::new();
    for &(name, patches) in MODULES {
        let from = original.join("src").join(format!("{name}.rs"));
        println!("cargo::rerun-if-changed={}", from.display());
        let text = fs::read_to_string(&from).map_err(|why| format!("{}: {why}", from.display()))?;
        let mut text = patched(text, patches).map_err(|why| format!("{}: {why}", from.display()))?;
        if name == "player" {
            // Inside the module, the bridge sees its private functions and fields.
            text += &module("bridge", &home.join("src/bridge.rs"));
        }
        let to = out.join(format!("{name}.rs"));
        write(&to, &text)?;
        list += "#[allow(dead_code, unused_variables)]\n";
        list += &module(name, &to);
    }
    write(&out.join("original.rs"), &list)
}

/// The text with all patches made, or which patch fitted how often.
fn patched(mut text: String, patches: &[Patch]) -> Result<String, String> {
    for (name, old, new) in patches {
        let times = text.matches(old).count();
        if times != 1 {
            return Err(format!("patch '{name}' fitted {times} times, not once"));
        }
        text = text.replacen(old, new, 1);
    }
    Ok(text)
}

/// A module's line with the place of its file, which an `include!` could not give.
fn module(name: &str, file: &Path) -> String {
    format!("#[path = {file:?}]\npub mod {name};\n")
}

fn write(file: &Path, text: &str) -> Result<(), String> {
    fs::write(file, text).map_err(|why| format!("{}: {why}", file.display()))
}
