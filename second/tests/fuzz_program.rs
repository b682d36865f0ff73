//! `second fuzz` itself: second's own line program shows no difference, and
//! wrong programs do.

use std::fs;
use std::os::unix::fs::PermissionsExt;
use std::path::PathBuf;
use std::process::{Command, Output};
use std::time::Duration;

const SECOND: &str = env!("CARGO_BIN_EXE_second");

/// A small program in a folder of its own, taken away at the end.
struct Program(PathBuf);

impl Program {
    fn new(name: &str, script: &str) -> Program {
        let folder = std::env::temp_dir();
        let path = folder.join(format!("second-program-{}-{name}", std::process::id()));
        fs::write(&path, format!("#!/bin/sh\n{script}\n")).unwrap();
        fs::set_permissions(&path, fs::Permissions::from_mode(0o755)).unwrap();
        Program(path)
    }

    fn fuzzed(&self, cases: &str) -> Output {
        let command = ["fuzz", "--cases", cases, self.0.to_str().unwrap()];
        Command::new(SECOND).args(command).output().unwrap()
    }
}

impl Drop for Program {
    fn drop(&mut self) {
        let _ = fs::remove_file(&self.0);
    }
}

fn text(output: &Output) -> String {
    String::from_utf8_lossy(&output.stdout).into_owned()
}

#[test]
fn the_own_line_program_shows_no_difference() {
    let program = Program::new("own", &format!("exec '{SECOND}' tickline"));
    let output = program.fuzzed("150");
    assert_eq!(text(&output), "150 cases, 0 differences\n");
    assert!(output.status.success());
}

#[track_caller]
fn shows_differences(name: &str, script: &str) {
    let output = Program::new(name, script).fuzzed("40");
    assert_eq!(output.status.code(), Some(1), "{}", text(&output));
    assert!(
        !text(&output).contains(" 0 differences"),
        "{}",
        text(&output)
    );
}

#[test]
fn wrong_programs_show_differences() {
    shows_differences("silent", "cat > /dev/null");
    shows_differences("endless", "exec yes 'refused 9'");
    shows_differences("signal", &format!("'{SECOND}' tickline; kill -9 $$"));
    shows_differences("no-table", &format!("cd / && exec '{SECOND}' tickline"));
    let changed = |edit: &str| format!("'{SECOND}' tickline | sed '{edit}'");
    shows_differences("nine", &changed("s/refused 9/refused 1/"));
    shows_differences("steps", &changed("s/ 4$/ 3/"));
    shows_differences("status", &format!("'{SECOND}' tickline; exit 3"));
    shows_differences("carriage", &format!("tr -d '\\r' | '{SECOND}' tickline"));
    shows_differences("nul", &format!("tr -d '\\0' | '{SECOND}' tickline"));
}

#[test]
fn a_program_that_does_not_finish_is_a_difference() {
    let program = Program::new("slow", "exec sleep 60");
    let limit = Duration::from_millis(300);
    let command = [program.0.to_str().unwrap()];
    assert_eq!(second::fuzz::run(&command, 2, limit).unwrap(), 2);
}

#[test]
fn a_program_that_is_not_there_is_told() {
    let missing = ["/nonexistent/program"];
    assert!(second::fuzz::run(&missing, 1, Duration::from_secs(1)).is_err());
    let output = Command::new(SECOND)
        .args(["fuzz", "/nonexistent/program"])
        .output()
        .unwrap();
    assert_eq!(output.status.code(), Some(2));
}

#[test]
fn commands_that_are_not_understood_are_told() {
    for command in [
        &[][..],
        &["nothing"],
        &["fuzz"],
        &["fuzz", "--cases", "many", "program"],
        &["fuzz", "--cases", "3"],
        &["bridge", "nothing"],
    ] {
        let output = Command::new(SECOND).args(command).output().unwrap();
        assert_eq!(output.status.code(), Some(2));
        assert!(String::from_utf8_lossy(&output.stderr).starts_with("usage"));
    }
}

/// Both words are paths from the folder that the command was given in.
#[test]
fn the_words_of_a_command_hold_in_other_folders() {
    let run = Program::new("run", "exec \"$@\"");
    let tickline = Program::new("tickline", &format!("exec '{SECOND}' tickline"));
    let [run, tickline] = [&run, &tickline].map(|p| {
        let name = p.0.file_name().unwrap().to_str().unwrap();
        format!("./{name}")
    });
    let output = Command::new(SECOND)
        .current_dir(std::env::temp_dir())
        .args(["fuzz", "--cases", "20", &run, &tickline])
        .output()
        .unwrap();
    assert_eq!(text(&output), "20 cases, 0 differences\n");
}

#[test]
fn words_that_are_no_path_go_as_they_are() {
    let command = ["fuzz", "--cases", "20", SECOND, "tickline"];
    let output = Command::new(SECOND).args(command).output().unwrap();
    assert_eq!(text(&output), "20 cases, 0 differences\n");
}
