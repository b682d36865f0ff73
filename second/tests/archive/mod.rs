//! Archives of the C files here, whose functions tell what they were called with,
//! and a bridge with all of them.

use std::fs;
use std::path::{Path, PathBuf};
use std::process::Command;
use std::sync::LazyLock;

/// Makes an archive in a folder of the C files that are named after it.
const MAKE_ARCHIVE: &str = r#"
    . bridge/kit
    for file in "${@:2}"; do
        "$tools/bin/clang" --target=x86_64-unknown-linux-gnu -O1 -fPIC \
            -c "tests/archive/$file.c" -o "$1/$file.o"
        "$tools/bin/llvm-ar" rcs "$1/archive.a" "$1/$file.o"
    done
"#;

#[track_caller]
fn succeeds(command: &mut Command) {
    let output = command.output().expect("bash, and the scripts of bridge/");
    let told = String::from_utf8_lossy(&output.stderr);
    assert!(output.status.success(), "{told}");
}

/// Makes an archive of these C files; gives its folder, and the command that
/// builds a bridge with it there.
pub fn archive(name: &str, files: &[&str]) -> (PathBuf, Command) {
    let folder = Path::new(env!("CARGO_TARGET_TMPDIR")).join(name);
    // What an earlier build left there must not be taken for this one's.
    let _ = fs::remove_dir_all(&folder);
    fs::create_dir_all(&folder).unwrap();
    let mut make = Command::new("bash");
    let words = ["-euc", MAKE_ARCHIVE, "make"];
    succeeds(make.args(words).arg(&folder).args(files));
    let mut build = Command::new("bridge/build");
    build.arg(folder.join("archive.a")).arg(&folder);
    (folder, build)
}

pub static WHOLE: LazyLock<PathBuf> = LazyLock::new(|| {
    let (folder, mut build) = archive("whole", &["tables", "conversions", "utc", "changes"]);
    succeeds(&mut build);
    folder.join("bridge")
});
