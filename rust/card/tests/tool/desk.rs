//! A temporary folder to run the tool in.

use std::fs;
use std::io::Write;
use std::path::{Path, PathBuf};
use std::process::{Command, Stdio};

pub struct Desk(PathBuf);

impl Desk {
    pub fn new(name: &str) -> Desk {
        let path =
            Path::new(env!("CARGO_TARGET_TMPDIR")).join(format!("{name}-{}", std::process::id()));
        let _ = fs::remove_dir_all(&path);
        fs::create_dir_all(&path).expect("a folder for the test");
        Desk(path)
    }

    /// Runs the tool on these words: its status, output and errors.
    pub fn run(&self, words: &str) -> (i32, String, String) {
        self.fed(words, b"")
    }

    /// The tool on these words, to be run in this folder.
    pub fn command(&self, words: &str) -> Command {
        let mut command = Command::new(env!("CARGO_BIN_EXE_card"));
        command.args(words.split_whitespace()).current_dir(&self.0);
        command
    }

    pub fn path(&self, file: &str) -> PathBuf {
        self.0.join(file)
    }

    /// The same, with these bytes as standard input.
    pub fn fed(&self, words: &str, input: &[u8]) -> (i32, String, String) {
        let mut command = self.command(words);
        command
            .stdin(Stdio::piped())
            .stdout(Stdio::piped())
            .stderr(Stdio::piped());
        let mut child = command.spawn().expect("the tool runs");
        // A tool that refuses its arguments reads nothing.
        let _ = child.stdin.take().expect("piped").write_all(input);
        let output = child.wait_with_output().expect("the tool ends");
        let text = |bytes: &[u8]| String::from_utf8_lossy(bytes).into_owned();
        let status = output.status.code().expect("no signal");
        (status, text(&output.stdout), text(&output.stderr))
    }

    /// Runs the tool, which must succeed without a word of complaint: its output.
    pub fn done(&self, words: &str) -> String {
        let (status, out, error) = self.run(words);
        assert_eq!((status, error.as_str()), (0, ""), "{words}");
        out
    }

    /// Runs the tool, which must refuse these words and say why among its errors.
    pub fn refused(&self, words: &str, says: &str) {
        let (status, out, error) = self.run(words);
        assert_eq!(status, 2, "{words}: {out}{error}");
        assert!(error.contains(says), "{words}: {out}{error}");
    }

    pub fn read(&self, file: &str) -> Vec<u8> {
        fs::read(self.0.join(file)).expect("a file that is there")
    }

    pub fn write(&self, file: &str, bytes: &[u8]) {
        fs::write(self.0.join(file), bytes).expect("a file that can be written")
    }

    pub fn remove(&self, file: &str) {
        fs::remove_file(self.0.join(file)).expect("a file that is there")
    }

    /// The names in a folder.
    pub fn names(&self, folder: &str) -> Vec<String> {
        let entries = fs::read_dir(self.0.join(folder)).expect("a folder that is there");
        let mut names: Vec<String> = entries
            .map(|entry| {
                entry
                    .expect("readable")
                    .file_name()
                    .to_string_lossy()
                    .into_owned()
            })
            .collect();
        names.sort();
        names
    }
}

impl Drop for Desk {
    fn drop(&mut self) {
        let _ = fs::remove_dir_all(&self.0);
    }
}
