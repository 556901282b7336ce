//! The program `compare` and its script, as they are run.

use super::files::{File, whole};
use crate::context::Context;
use oracle::paper::comparing::compare;
use std::fs;
use std::path::{Path, PathBuf};
use std::process::{Command, Output};

/// Where `./check` and `tools/programs` put the program.
const PROGRAM: &str = concat!(env!("CARGO_MANIFEST_DIR"), "/../../target/bin/compare");

const SCRIPT: &str = concat!(env!("CARGO_MANIFEST_DIR"), "/../../tools/compare");

/// The program with a folder for its files, which goes with it.
pub struct Program {
    folder: PathBuf,
}

impl Drop for Program {
    fn drop(&mut self) {
        _ = fs::remove_dir_all(&self.folder);
    }
}

impl Program {
    pub fn new() -> Self {
        assert!(
            Path::new(PROGRAM).exists(),
            "{PROGRAM} is not there: run `tools/programs` first"
        );
        let folder = std::env::temp_dir().join(format!("compare-{}", std::process::id()));
        fs::create_dir_all(&folder).expect("a folder for the files");
        Self { folder }
    }

    /// The left file in standard input, the right one in descriptor 3.
    pub fn both(&self, context: &mut Context, left: &File, right: &File) {
        let [l, r] = self.stored(left, right);
        let mut shell = Command::new("sh");
        let run = "exec \"$0\" <\"$1\" 3<\"$2\"";
        let output = ended(shell.args(["-c", run, PROGRAM]).arg(l).arg(r));
        assert!(
            output.status.success(),
            "compare ended with {}",
            output.status
        );
        let paper = compare(&left.bytes, &right.bytes);
        context.same("compare", paper, text(output.stdout), || shown(left, right));
    }

    /// What the script prints, and the status that it ends with: 0 where nothing differs, 1 where something
    /// does, 2 where a stream is refused.
    pub fn scripted(&self, context: &mut Context, left: &File, right: &File) {
        let [l, r] = self.stored(left, right);
        let output = ended(Command::new(SCRIPT).arg(l).arg(r));
        let paper = compare(&left.bytes, &right.bytes);
        let status = match paper.as_str() {
            "differ 0\n" => 0,
            refusal if refusal.contains("refused") => 2,
            _ => 1,
        };
        let said = (
            text(output.stdout),
            output.status.code(),
            text(output.stderr),
        );
        let paper = (paper, Some(status), String::new());
        context.same("tools/compare", paper, said, || shown(left, right));
    }

    /// Files that are not there or none, and too few or too many of them: status 2, nothing in standard
    /// output, and which it is in standard error. Help is no failure.
    pub fn unread(&self, context: &mut Context) {
        let [there, _] = self.stored(&whole(), &whole());
        let there = there.to_str().expect("a path of letters");
        let folder = self.folder.to_str().expect("a path of letters");
        let missing = format!("{folder}/missing");
        for (words, told) in [
            (vec![], "the number of names is 0"),
            (vec![there], "the number of names is 1"),
            (vec![there, there, there], "the number of names is 3"),
            (vec![&missing, there], "there is no file"),
            (vec![there, &missing], "there is no file"),
            (vec![folder, there], "is a folder"),
            (vec![there, folder], "is a folder"),
            (vec![there, ""], "a file's name is empty"),
            (vec!["-", "-"], "standard input can be one"),
        ] {
            let output = ended(Command::new(SCRIPT).args(&words));
            let is_told = text(output.stderr).contains(told);
            let said = (output.status.code(), text(output.stdout), is_told);
            let paper = (Some(2), String::new(), true);
            context.same("tools/compare", paper, said, || format!("{words:?}"));
        }
        let output = ended(Command::new(SCRIPT).arg("--help"));
        let is_told = text(output.stdout).starts_with("usage: tools/compare LEFT RIGHT");
        let said = (output.status.code(), is_told);
        context.same("tools/compare", (Some(0), true), said, || {
            "--help".to_string()
        });
    }

    fn stored(&self, left: &File, right: &File) -> [PathBuf; 2] {
        [("left", left), ("right", right)].map(|(name, file)| {
            let path = self.folder.join(name);
            fs::write(&path, &file.bytes).expect("room for a file");
            path
        })
    }
}

fn ended(command: &mut Command) -> Output {
    command.output().expect("a command that can be started")
}

fn text(bytes: Vec<u8>) -> String {
    String::from_utf8(bytes).expect("text")
}

pub fn shown(left: &File, right: &File) -> String {
    let front = |file: &File| file.bytes[..file.bytes.len().min(40)].to_vec();
    let (l, r) = (front(left), front(right));
    format!("{}: {l:02X?} beside {}: {r:02X?}", left.name, right.name)
}
