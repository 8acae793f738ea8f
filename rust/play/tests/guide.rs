//! docs/INTEGRATION.md shows programs that build and run.
use port::wav::{self, Take};
use std::io::Write;
use std::path::PathBuf;
use std::process::{Command, Output, Stdio};
use std::{env, fs};

fn root() -> PathBuf {
    PathBuf::from(env!("CARGO_MANIFEST_DIR")).join("../..")
}

#[test]
fn the_guide_shows_the_examples_as_they_are() {
    let read = |path: &str| fs::read_to_string(root().join(path)).unwrap();
    let guide = read("docs/INTEGRATION.md");
    for (language, file) in [("rust", "host.rs"), ("c", "host.c"), ("c", "take.c")] {
        let program = read(&format!("rust/play/examples/{file}"));
        assert!(guide.contains(&format!("```{language}\n{program}```\n")), "docs/INTEGRATION.md does not show {file}");
    }
}

/// An example in C, built; the one in Rust is an example of this package.
struct Example(PathBuf);

impl Example {
    fn build(name: &str) -> Self {
        let program = env::temp_dir().join(format!("hda-{name}-{}", std::process::id()));
        let built = Command::new("cc")
            .args(["-std=c11", "-Wall", "-Wextra", "-Werror", "-I"])
            .args([root().join("include"), root().join(format!("rust/play/examples/{name}.c")), root().join("target/staticlib/libport.a")])
            .arg("-o")
            .arg(&program)
            .status()
            .expect("a C compiler");
        assert!(built.success());
        Self(program)
    }

    /// What it prints, given these bytes.
    fn run(&self, words: &[&str], given: &[u8]) -> Output {
        let mut program =
            Command::new(&self.0).args(words).stdin(Stdio::piped()).stdout(Stdio::piped()).stderr(Stdio::piped()).spawn().unwrap();
        // One that refuses its words does not read.
        program.stdin.take().unwrap().write_all(given).ok();
        program.wait_with_output().unwrap()
    }
}

impl Drop for Example {
    fn drop(&mut self) {
        fs::remove_file(&self.0).ok();
    }
}

#[test]
fn the_host_in_c_builds_and_runs() {
    let output = Example::build("host").run(&[], &[]);
    assert_eq!(String::from_utf8_lossy(&output.stdout), "10 ms are 240000 ticks of 24 MHz; line 0\n");
}

#[test]
fn the_take_in_c_is_a_file() {
    let example = Example::build("take");
    // More than the example's first space.
    for length in [0, 4, 1 << 20, 3_000_000] {
        let frames: Vec<u8> = (0..length).map(|place| (place % 251) as u8).collect();
        let output = example.run(&["96000"], &frames);
        assert!(output.status.success());
        assert_eq!(wav::take(&output.stdout), Ok(Take { rate: 96_000, frames }));
    }
    for (words, given, status, told) in [
        (vec![], 4, 2, "usage: take RATE"),
        (vec!["50000"], 4, 1, "take: 4 bytes at 50000 frames a second are no take: "),
        (vec!["48000"], 7, 1, "take: 7 bytes at 48000 frames a second are no take: "),
    ] {
        let output = example.run(&words, &vec![0; given]);
        let error = String::from_utf8_lossy(&output.stderr).into_owned();
        assert!(output.status.code() == Some(status) && output.stdout.is_empty() && error.starts_with(told), "{words:?}: {error}");
    }
}
