//! Builds `published` and `filled` from the Rust's own text, where the variable ORACLE_SRC names
//! the folder that holds `crates/modelardb_compression/src`. `published` is the text as it is, with
//! its paths turned to our stand-ins; `filled` has document 01's bodies in the place of the text's
//! own where 01 says "fixed here". The text itself is only read, and kept nowhere but in OUT_DIR.

use std::path::{Path, PathBuf};
use std::process::exit;
use std::{env, fs};

fn main() {
    println!("cargo::rustc-check-cfg=cfg(text_at_hand)");
    println!("cargo::rerun-if-env-changed=ORACLE_SRC");
    println!("cargo::rerun-if-changed=build.rs");
    let Some(folder) = source_folder() else {
        return;
    };
    println!("cargo::rerun-if-changed={}", folder.display());
    println!("cargo::rustc-cfg=text_at_hand");
    let out = PathBuf::from(env::var("OUT_DIR").expect("cargo sets OUT_DIR"));
    let published = Text::read(&folder);
    let filled = Text::read(&folder).filled();
    for (name, text) in [("published", published), ("filled", filled)] {
        let file = out.join(format!("{name}.rs"));
        fs::write(file, text.into_modules(name)).expect("OUT_DIR can be written");
    }
}

/// The folder of the text, if it is at hand.
fn source_folder() -> Option<PathBuf> {
    let folder = PathBuf::from(env::var_os("ORACLE_SRC")?);
    let folder = folder.join("crates/modelardb_compression/src");
    folder.is_dir().then_some(folder)
}

/// Ends the build in plain words.
fn fail(reason: &str) -> ! {
    eprintln!("The Rust's text under ORACLE_SRC is not the one that this build expects: {reason}.");
    eprintln!("Unset ORACLE_SRC to build without it.");
    exit(1)
}

/// A file of the text.
struct File {
    name: &'static str,
    text: String,
}

impl File {
    fn read(folder: &Path, name: &'static str) -> Self {
        match fs::read_to_string(folder.join(name)) {
            Ok(text) => Self { name, text },
            Err(error) => fail(&format!("{name} cannot be read ({error})")),
        }
    }

    /// Puts `new` wherever `old` stands, which must be somewhere.
    fn replace(&mut self, old: &str, new: &str) {
        if !self.text.contains(old) {
            fail(&format!("{} has no `{old}`", self.name));
        }
        self.text = self.text.replace(old, new);
    }

    /// The place where `mark` begins.
    fn place(&self, mark: &str) -> usize {
        let found = self.text.find(mark);
        found.unwrap_or_else(|| fail(&format!("{} has no `{mark}`", self.name)))
    }

    /// Cuts out what stands from one mark up to another.
    fn cut(&mut self, from: &str, to: &str) {
        let (start, end) = (self.place(from), self.place(to));
        self.text.replace_range(start..end, "");
    }

    /// Puts another body under a function's signature.
    fn fill(&mut self, signature: &str, body: &str) {
        let start = self.place(signature);
        let open = start + self.text[start..].find('{').unwrap_or(0);
        let mut depth = 0;
        for (offset, letter) in self.text[open..].char_indices() {
            match letter {
                '{' => depth += 1,
                '}' => depth -= 1,
                _ => {}
            }
            if depth == 0 {
                self.text.replace_range(open + 1..open + offset, body);
                return;
            }
        }
        fail(&format!("{} does not end `{signature}`", self.name))
    }

    /// Opens the fields of every struct, so that states can be handed in and looked at.
    fn open_fields(&mut self) {
        let mut in_struct = false;
        let mut text = String::new();
        for line in self.text.lines() {
            if line.starts_with("pub") && line.contains("struct ") {
                in_struct = true;
            } else if line == "}" {
                in_struct = false;
            }
            let name = line.trim_start().split(':').next().unwrap_or("");
            let is_field = in_struct
                && line.contains(": ")
                && name.chars().all(|c| c == '_' || c.is_ascii_lowercase());
            text += if is_field { "pub " } else { "" };
            text += line;
            text += "\n";
        }
        self.text = text;
    }
}

/// The files of the text that the comparison needs.
struct Text {
    error: File,
    models: File,
    bits: File,
    macaque_v: File,
    pmc_mean: File,
    swing: File,
    timestamps: File,
    types: File,
}

impl Text {
    /// Reads the files. Schemas, tags and batches are left out: the batch builder is a stand-in.
    fn read(folder: &Path) -> Self {
        let mut text = Self {
            error: File::read(folder, "error.rs"),
            models: File::read(folder, "models/mod.rs"),
            bits: File::read(folder, "models/bits.rs"),
            macaque_v: File::read(folder, "models/macaque_v.rs"),
            pmc_mean: File::read(folder, "models/pmc_mean.rs"),
            swing: File::read(folder, "models/swing.rs"),
            timestamps: File::read(folder, "models/timestamps.rs"),
            types: File::read(folder, "types.rs"),
        };
        let types = &mut text.types;
        types.cut("use std::sync::Arc;", "use modelardb_types::");
        let batches = types.place("/// A batch of compressed segments being built.");
        types.text.truncate(batches);
        types.text += "use crate::stand_in::CompressedSegmentBatchBuilder;\n";
        for file in text.files() {
            file.open_fields();
        }
        text
    }

    fn files(&mut self) -> [&mut File; 8] {
        [
            &mut self.error,
            &mut self.models,
            &mut self.bits,
            &mut self.macaque_v,
            &mut self.pmc_mean,
            &mut self.swing,
            &mut self.timestamps,
            &mut self.types,
        ]
    }

    /// Document 01's bodies in the place of the text's own.
    fn filled(mut self) -> Self {
        let models = &mut self.models;
        models.fill("pub fn is_value_within_error_bound(", WITHIN);
        models.fill("pub fn maximum_allowed_deviation(", DEVIATION);
        self.bits.fill("pub fn read_bits(", READ_BITS);
        self.bits.fill("pub fn append_bits(", APPEND_BITS);
        self.bits.fill("pub fn finish(", FINISH_BITS);
        let writer = &mut self.macaque_v;
        writer.fill("pub fn new(", WRITER_NEW);
        writer.fill("fn rewrite_least_mantissa_bits(", REWRITE);
        writer.fill("fn update_min_max_and_last_value(", UPDATE);
        writer.fill("pub fn model(", WRITER_MODEL);
        for file in [&mut self.pmc_mean, &mut self.types] {
            file.replace("Value::min(", "crate::stand_in::minimum(");
            file.replace("Value::max(", "crate::stand_in::maximum(");
        }
        let clamped = "self\n            .lower_bound_slope\n            .max(projected_slope.min(self.upper_bound_slope))";
        self.swing.replace(clamped, CLAMPED);
        self
    }

    /// The text as one tree of modules, its paths turned to ours.
    fn into_modules(mut self, name: &str) -> String {
        for file in self.files() {
            let own = format!("crate::{name}::text::");
            file.text = file.text.replace("crate::", &own);
            file.text = file
                .text
                .replace(&format!("{own}stand_in"), "crate::stand_in");
            file.text = file.text.replace(
                "use modelardb_types::",
                "use crate::stand_in::modelardb_types::",
            );
            file.text = file
                .text
                .replace("use arrow::", "use crate::stand_in::arrow::");
        }
        let inner = [
            ("bits", self.bits.text),
            ("macaque_v", self.macaque_v.text),
            ("pmc_mean", self.pmc_mean.text),
            ("swing", self.swing.text),
            ("timestamps", self.timestamps.text),
        ];
        for (name, text) in inner {
            let module = format!("pub mod {name} {{\n{text}\n}}");
            self.models.replace(&format!("pub mod {name};"), &module);
        }
        let outer = [
            ("error", self.error.text),
            ("models", self.models.text),
            ("types", self.types.text),
        ];
        outer
            .map(|(name, text)| format!("pub mod {name} {{\n{text}\n}}\n"))
            .concat()
    }
}

// The bodies that document 01 gives, by its sentences.

const WITHIN: &str = "
    let equal = real_value == approximate_value;
    let both_nan = real_value.is_nan() && approximate_value.is_nan();
    let near = match error_bound {
        ErrorBound::Lossless => false,
        ErrorBound::Absolute(bound) => (real_value - approximate_value).abs() <= bound,
        ErrorBound::Relative(bound) => {
            let quotient = (real_value - approximate_value) / real_value;
            quotient.abs() * 100.0 <= bound
        }
    };
    equal || both_nan || near
";

const DEVIATION: &str = "
    match error_bound {
        ErrorBound::Lossless => 0.0,
        ErrorBound::Absolute(bound) => bound as f64,
        ErrorBound::Relative(bound) => (value * (bound as f64 / 100.0)).abs(),
    }
";

const READ_BITS: &str = "
    let mut value = 0;
    for _ in 0..number_of_bits {
        let from_the_place = self.bytes[self.next_bit / 8] << (self.next_bit % 8);
        value = (value << 1) | u64::from(from_the_place >> 7);
        self.next_bit += 1;
    }
    value
";

const APPEND_BITS: &str = "
    for place in (0..number_of_bits).rev() {
        self.remaining_bits -= 1;
        self.current_byte |= ((bits >> place) as u8 & 1) << self.remaining_bits;
        if self.remaining_bits == 0 {
            self.bytes.push(self.current_byte);
            self.current_byte = 0;
            self.remaining_bits = 8;
        }
    }
";

const FINISH_BITS: &str = "
    if self.remaining_bits < 8 {
        self.bytes.push(self.current_byte);
    }
    self.bytes
";

const WRITER_NEW: &str = "
    Self {
        error_bound,
        min_value: Value::from_bits(0x7FC0_0000),
        max_value: Value::from_bits(0x7FC0_0000),
        last_value: 0.0,
        last_leading_zero_bits: 255,
        last_trailing_zero_bits: 0,
        compressed_values: BitVecBuilder::new(),
        length: 0,
    }
";

const REWRITE: &str = "
    let mut rewritten = value;
    for cleared in 0..=23 {
        let candidate = Value::from_bits(value.to_bits() & (u32::MAX << cleared));
        if models::is_value_within_error_bound(self.error_bound, value, candidate) {
            rewritten = candidate;
        }
    }
    rewritten
";

const UPDATE: &str = "
    self.min_value = crate::stand_in::minimum(self.min_value, value);
    self.max_value = crate::stand_in::maximum(self.max_value, value);
    self.last_value = value;
    self.length += 1;
";

const WRITER_MODEL: &str = "
    (self.compressed_values.finish(), self.min_value, self.max_value)
";

const CLAMPED: &str = "crate::stand_in::maximum(
    self.lower_bound_slope,
    crate::stand_in::minimum(projected_slope, self.upper_bound_slope),
)";
