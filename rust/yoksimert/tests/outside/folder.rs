//! A folder outside the repository, and commands in it.

use std::path::{Path, PathBuf};
use std::process::{Command, Output};
use std::{env, fs, process};

/// Removed in the end.
pub struct Outside(PathBuf);

impl Outside {
    /// An empty folder.
    pub fn empty(name: &str) -> Self {
        let root = env::temp_dir().join(format!("yoksimert-{name}-{}", process::id()));
        // A run that was killed may have left one of this number behind.
        if root.exists() {
            fs::remove_dir_all(&root).expect("it is this test's");
        }
        fs::create_dir(&root).unwrap_or_else(|error| panic!("{}: {error}", root.display()));
        Self(root)
    }

    /// With a package in `dist`, of what was built last.
    pub fn packaged(name: &str) -> Self {
        let outside = Self::empty(name);
        accepted(&mut package(&outside.path("dist")));
        outside
    }

    pub fn path(&self, path: &str) -> PathBuf {
        self.0.join(path)
    }

    pub fn make_folder(&self, path: &str) -> PathBuf {
        let folder = self.path(path);
        fs::create_dir_all(&folder).expect("a folder is made");
        folder
    }

    pub fn rename(&self, from: &str, to: &str) {
        fs::rename(self.path(from), self.path(to)).expect("it is there");
    }

    /// A crate of one program, in a folder of the same name, that depends on the package's crate.
    pub fn add_program(&self, name: &str, text: &str) {
        let folder = self.make_folder(name);
        let manifest = format!(
            "[package]\nname = \"{name}\"\nedition = \"2024\"\n\n\
             [dependencies]\nyoksimert = {{ path = \"../dist/rust/yoksimert\" }}\n"
        );
        self.make_folder(&format!("{name}/src"));
        fs::write(folder.join("Cargo.toml"), manifest).expect("the manifest is written");
        fs::write(folder.join("src/main.rs"), text).expect("the program is written");
    }

    /// cargo in one of the folders.
    pub fn cargo(&self, folder: &str, words: &[&str]) -> Command {
        let mut command = Command::new(env!("CARGO"));
        command
            .args(words)
            .args(["--offline", "--quiet", "--color=never"])
            .current_dir(self.path(folder))
            .env("CARGO_TARGET_DIR", self.path("target"))
            .env_remove("YOKSIMERT_LIB_DIR");
        command
    }
}

impl Drop for Outside {
    fn drop(&mut self) {
        if let Err(error) = fs::remove_dir_all(&self.0) {
            eprintln!("{} is left: {error}", self.0.display());
        }
    }
}

/// `./package` of what was built last.
pub fn package(to: &Path) -> Command {
    let script = Path::new(env!("CARGO_MANIFEST_DIR")).join("../../package");
    let mut command = Command::new(script);
    command.arg("--no-build").arg(to);
    command
}

/// The files below a folder, by their paths from it.
pub fn files(folder: &Path) -> Vec<String> {
    let mut find = Command::new("find");
    find.args([".", "-type", "f", "-printf", "%P\\n"]);
    let listed = accepted(find.current_dir(folder));
    let mut all: Vec<_> = listed.lines().map(str::to_string).collect();
    all.sort();
    all
}

fn output(command: &mut Command) -> Output {
    command
        .output()
        .unwrap_or_else(|error| panic!("{command:?}: {error}"))
}

/// What the command writes.
pub fn accepted(command: &mut Command) -> String {
    let Output {
        status,
        stdout,
        stderr,
    } = output(command);
    let said = String::from_utf8_lossy(&stderr);
    assert!(status.success(), "{command:?}\n{said}");
    String::from_utf8(stdout).expect("text")
}

/// What the command complains of.
pub fn refused(command: &mut Command) -> String {
    let ran = output(command);
    assert!(!ran.status.success(), "{command:?} is not refused");
    String::from_utf8(ran.stderr).expect("text")
}
