//! Runs that are cut short between writing and renaming: the chart is as it was, nothing is left
//! beside it, and the next run gives the chart of one run.

use std::io;
use std::process::{Child, Command, Stdio};

use crate::blocked::{parts, Blocked};
use crate::days::{begun, held};
use crate::Folder;

const DAY: &str = "day --rings 0 --limit 30 --date 2026-03-09 news cloud c";
const SAID: &str = "2026-03-09: fresh 5, coldest 16.0 °C, warmest 16.5 °C\n";

fn words() -> Vec<&'static str> {
    DAY.split(' ').collect()
}

/// The day is run after a failure and gives the chart of one run.
fn retried(folder: &Folder) {
    folder.prints(DAY, SAID);
    let (temperatures, ages) = held(folder, "c");
    assert_eq!(temperatures[4..8], 16.5f32.to_le_bytes());
    assert_eq!(ages, [1, 0, 0, 0, 0, 0, 1, 1]);
    folder.prints("reading 0 c", "carried 21.0 °C, 1 day, chart of 2026-03-09\n");
}

#[test]
fn sigkill_between_write_and_rename() {
    let folder = begun();
    let before = folder.get("c");
    assert_eq!(Blocked::start(&folder, &words()).end("KILL"), Some(9));
    assert_eq!(folder.get("c"), before);
    // The temporary file is left, and hinders nobody.
    assert_eq!(parts(&folder), [76]);
    retried(&folder);
}

#[test]
fn signals_remove_temporary_files() {
    for (name, number) in [("INT", 2), ("TERM", 15), ("HUP", 1)] {
        let folder = begun();
        let before = folder.all();
        // A shell starts background jobs with SIGINT ignored, and tests may be run in one.
        let script = "exec env --default-signal=HUP,INT,TERM \"$0\" \"$@\"";
        let run = Blocked::run(&folder, &mut folder.shell(script, &words()));
        assert_eq!(run.end(name), Some(number), "{name}");
        assert_eq!(folder.all(), before, "{name}");
        retried(&folder);
    }
}

#[test]
fn a_signal_that_is_ignored_stays_ignored() {
    let folder = begun();
    let script = "trap '' HUP TERM; exec \"$0\" \"$@\"";
    let run = Blocked::run(&folder, &mut folder.shell(script, &words()));
    run.signal("HUP");
    run.signal("TERM");
    assert_eq!(run.release(), (Some(0), SAID.to_string()));
}

#[test]
fn a_broken_pipe_changes_nothing() {
    let folder = begun();
    let before = folder.all();
    let (reader, writer) = io::pipe().unwrap();
    drop(reader);
    let piped = folder.command(&words()).stdout(writer).output().unwrap();
    for output in [piped, Blocked::start(&folder, &words()).abandon()] {
        assert_eq!(output.status.code(), Some(141));
        let told = "ticklocust: standard output: broken pipe; no file is changed\n";
        assert_eq!(String::from_utf8(output.stderr).unwrap(), told);
    }
    assert_eq!(folder.all(), before);
    retried(&folder);
}

#[test]
fn a_closed_or_unwritable_standard_output_changes_nothing() {
    let folder = begun();
    let before = folder.all();
    for (redirected, told) in [(">&-", "is closed"), ("1</dev/null", "Bad file descriptor")] {
        for words in [words(), vec!["cell", "--level", "1", "--latitude", "0", "--longitude", "0"]]
        {
            let script = format!("exec \"$0\" \"$@\" {redirected}");
            let output = folder.shell(&script, &words).output().unwrap();
            let said = String::from_utf8(output.stderr).unwrap();
            assert!(said.starts_with(&format!("ticklocust: standard output: {told}")), "{said}");
            assert_eq!(output.status.code(), Some(2));
        }
    }
    assert_eq!(folder.all(), before);
    // What prints nothing doesn't need it.
    let grow = ["grow", "--rings", "1", "cloud", "grown"];
    let status = folder.shell("exec \"$0\" \"$@\" >&-", &grow).status().unwrap();
    assert_eq!((status.code(), folder.get("grown")), (Some(0), vec![191]));
    retried(&folder);
}

#[test]
fn a_full_file_system() {
    // It takes a mount in a namespace of one's own, which not every system allows: there, the test
    // below stands in for this one.
    let folder = begun();
    let script = "set -e; mkdir full; mount -t tmpfs -o size=64k none full; cp c news cloud full
        cd full; cat /dev/zero >rest 2>/dev/null || true
        \"$0\" \"$@\" 2>&1 || echo status $?; cmp c ../c; ls -A; rm rest
        \"$0\" \"$@\"; \"$0\" reading 0 c; \"$0\" \"$@\" 2>&1 || echo status $?";
    let words =
        [&["-Urm", "sh", "-c", script, env!("CARGO_BIN_EXE_ticklocust")], &words()[..]].concat();
    let mount = "mkdir try && mount -t tmpfs none try";
    let mut allowed = Command::new("unshare");
    allowed.args(["-Urm", "sh", "-c", mount]).current_dir(&folder.0).stderr(Stdio::null());
    if !allowed.status().is_ok_and(|status| status.success()) {
        return;
    }
    let output = Command::new("unshare").args(words).current_dir(&folder.0).output().unwrap();
    let expected = format!(
        "ticklocust: c: No space left on device (os error 28)\nstatus 2\nc\ncloud\nnews\nrest\n\
         {SAID}carried 21.0 °C, 1 day, chart of 2026-03-09\n\
         ticklocust: c: 2026-03-09 is not after its date, 2026-03-09: nothing is changed\nstatus 4\n"
    );
    assert_eq!(String::from_utf8(output.stdout).unwrap(), expected);
}

#[test]
fn a_file_that_cant_be_written_whole() {
    // A limit on the length of files makes the write fail.
    let folder = begun();
    let before = folder.all();
    let output =
        folder.shell("trap '' XFSZ; ulimit -f 0; exec \"$0\" \"$@\"", &words()).output().unwrap();
    let said = String::from_utf8(output.stderr).unwrap();
    assert!(said.starts_with("ticklocust: c: File too large"), "{said}");
    assert_eq!((output.status.code(), output.stdout), (Some(2), Vec::new()));
    assert_eq!(folder.all(), before);
    retried(&folder);
}

#[test]
fn many_runs_at_once_are_one_run() {
    for _ in 0..5 {
        let folder = begun();
        let start = || folder.command(&words()).stdout(Stdio::piped()).spawn().unwrap();
        let runs: Vec<Child> = (0..8).map(|_| start()).collect();
        let mut done = 0;
        for run in runs {
            let output = run.wait_with_output().unwrap();
            let told = String::from_utf8(output.stderr).unwrap();
            match output.status.code() {
                Some(0) => done += 1,
                Some(2) => assert!(told.contains("another run has this chart in use"), "{told}"),
                Some(4) => assert!(told.contains("is not after its date"), "{told}"),
                other => panic!("{other:?}: {told}"),
            }
        }
        assert_eq!(done, 1);
        assert_eq!(held(&folder, "c").1, [1, 0, 0, 0, 0, 0, 1, 1]);
        assert!(parts(&folder).is_empty());
    }
}

#[test]
fn temporary_names_dont_collide() {
    let folder = begun();
    let script = "touch .ticklocust-$$-0.part .ticklocust-$$-1.part; exec \"$0\" \"$@\"";
    let output = folder.shell(script, &words()).output().unwrap();
    assert_eq!((output.status.code(), output.stdout), (Some(0), SAID.as_bytes().to_vec()));
    assert_eq!(parts(&folder), [0, 0]);
}
