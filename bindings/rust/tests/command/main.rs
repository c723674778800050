//! The command, run as people run it: what it prints, its status, and the files it leaves.

mod blocked;
mod charts;
mod crashes;
mod damage;
mod days;
mod examples;
mod false_charts;
mod files;
mod masks;
mod places;

use std::fs;
use std::io::Write;
use std::path::{Path, PathBuf};
use std::process::{Child, Command, Stdio};
use std::sync::atomic::{AtomicU32, Ordering};

/// A folder of a test's own, removed afterwards.
struct Folder(PathBuf);

impl Folder {
    fn new() -> Folder {
        static NUMBER: AtomicU32 = AtomicU32::new(0);
        let number = NUMBER.fetch_add(1, Ordering::Relaxed);
        let name = format!("ticklocust-test-{}-{number}", std::process::id());
        let path = std::env::temp_dir().join(name);
        fs::create_dir(&path).unwrap();
        Folder(path)
    }

    fn put(&self, name: &str, bytes: &[u8]) {
        fs::write(self.0.join(name), bytes).unwrap();
    }

    fn get(&self, name: &str) -> Vec<u8> {
        fs::read(self.0.join(name)).unwrap()
    }

    /// Every file with its bytes, in the order of names.
    fn all(&self) -> Vec<(PathBuf, Vec<u8>)> {
        fn walk(folder: &Path, files: &mut Vec<(PathBuf, Vec<u8>)>) {
            for entry in fs::read_dir(folder).unwrap() {
                let path = entry.unwrap().path();
                if path.is_dir() {
                    walk(&path, files);
                } else {
                    let bytes = fs::read(&path).unwrap();
                    files.push((path, bytes));
                }
            }
        }
        let mut files = Vec::new();
        walk(&self.0, &mut files);
        files.sort();
        files
    }

    /// The command with these words, without standard input and with its errors caught.
    fn command(&self, words: &[&str]) -> Command {
        let mut command = Command::new(env!("CARGO_BIN_EXE_ticklocust"));
        command.args(words).current_dir(&self.0).stdin(Stdio::null()).stderr(Stdio::piped());
        command
    }

    /// A script of the shell that has the command as $0 and these words as its arguments.
    fn shell(&self, script: &str, words: &[&str]) -> Command {
        let mut command = Command::new("sh");
        command.args(["-c", script, env!("CARGO_BIN_EXE_ticklocust")]).args(words);
        command.current_dir(&self.0).stdin(Stdio::null()).stderr(Stdio::piped());
        command
    }

    fn start(&self, words: &[&str]) -> Child {
        self.command(words).stdin(Stdio::piped()).stdout(Stdio::piped()).spawn().unwrap()
    }

    /// Runs the command with these words and this standard input.
    fn run(&self, words: &[&str], input: &[u8]) -> Said {
        let mut child = self.start(words);
        // A command that is refused may not read all of it.
        let _ = child.stdin.take().unwrap().write_all(input);
        let output = child.wait_with_output().unwrap();
        Said {
            status: output.status.code().expect("ended by itself"),
            out: output.stdout,
            err: String::from_utf8(output.stderr).unwrap(),
        }
    }

    /// Runs it, checks that it is accepted, and gives its standard output.
    fn prints(&self, line: &str, out: &str) {
        let said = self.run(&line.split(' ').collect::<Vec<_>>(), &[]);
        assert_eq!((said.status, said.err.as_str()), (0, ""), "{line}");
        assert_eq!(String::from_utf8(said.out).unwrap(), out, "{line}");
    }

    /// Runs it and checks that it is refused by that number, says so, and touches no file. Gives the
    /// sentence.
    fn refused(&self, line: &str, number: u32) -> String {
        let before = self.all();
        let said = self.run(&line.split(' ').collect::<Vec<_>>(), &[]);
        let told = format!("refused {number}: ");
        assert!(said.err.starts_with(&told) && said.err.ends_with('\n'), "{line}: {}", said.err);
        assert_eq!((said.status, said.out), (3, Vec::new()), "{line}");
        assert_eq!(self.all(), before, "{line}");
        said.err[told.len()..].trim_end().to_string()
    }

    /// Runs it and checks that its words or files are wrong, that it says these words, and that it
    /// touches no file.
    fn wrong(&self, words: &[&str], told: &str) {
        self.fails(words, 2, told);
    }

    /// The same for a line without quotes.
    fn wrong_line(&self, line: &str, told: &str) {
        self.fails(&line.split(' ').collect::<Vec<_>>(), 2, told);
    }

    /// Runs a day that doesn't follow the chart's date, and checks that it says these words and
    /// touches no file.
    fn not_in_order(&self, line: &str, told: &str) {
        self.fails(&line.split(' ').collect::<Vec<_>>(), 4, told);
    }

    fn fails(&self, words: &[&str], status: i32, told: &str) {
        let before = self.all();
        let said = self.run(words, &[]);
        assert!(said.err.contains(told), "{words:?}: {}", said.err);
        assert!(said.err.starts_with("ticklocust: "), "{words:?}: {}", said.err);
        assert_eq!((said.status, said.out), (status, Vec::new()), "{words:?}");
        assert_eq!(self.all(), before, "{words:?}");
    }

    /// Runs it with lines on standard input.
    fn answers(&self, line: &str, input: &str, out: &str) {
        let said = self.run(&line.split(' ').collect::<Vec<_>>(), input.as_bytes());
        assert_eq!((said.status, said.err.as_str()), (0, ""), "{line}");
        assert_eq!(String::from_utf8(said.out).unwrap(), out, "{line}");
    }
}

impl Drop for Folder {
    fn drop(&mut self) {
        let _ = fs::remove_dir_all(&self.0);
    }
}

struct Said {
    status: i32,
    out: Vec<u8>,
    err: String,
}

#[test]
fn wrong_words_are_told() {
    let folder = Folder::new();
    folder.wrong(&[], "no subcommand is given\ntry: ticklocust help");
    folder.wrong(&["glow"], "there is no subcommand 'glow'");
    folder.wrong(&["border"], "border is followed by read, write or mask");
    folder.wrong(&["mask"], "mask is followed by mark, list, and, minus or not");
    folder.wrong(&["chart", "newer"], "chart is followed by new, import, export, info or list");
    folder.wrong(&["count"], "MASK is missing\ntry: ticklocust help count");
    folder.wrong(&["count", "a", "b"], "'b' is one word too many");
    folder.wrong(&["grow", "a", "b"], "--rings is missing");
    folder.wrong(&["grow", "--rings", "two", "a", "b"], "--rings is a whole number");
    folder.wrong(&["grow", "--rings=-1", "a", "b"], "not '-1'");
    folder.wrong(&["grow", "--ring", "2", "a", "b"], "there is no option '--ring' here");
    folder.wrong(&["count", "absent"], "absent: No such file");
    folder.wrong(&["--version", "x"], "'x' is one word too many");
    folder.wrong(&["help", "nonsense"], "there is no help on 'nonsense'");
    folder.wrong(&["help", "grow", "more"], "there is no help on 'grow more'");
    folder.wrong(&["--help", "chart", "nonsense"], "there is no help on 'chart nonsense'");
    folder.wrong(&["join", "-", "-", "out"], "standard input can stand for one file only");
}
