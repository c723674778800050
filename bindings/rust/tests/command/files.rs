//! Standard input and output, files written whole or not at all, pipes that break.

use std::ffi::OsStr;
use std::fs;
use std::io::Write;
use std::os::unix::ffi::OsStrExt;
use std::os::unix::fs::{symlink, PermissionsExt};
use std::process::Stdio;

use crate::Folder;

#[test]
fn dash_is_standard_input_and_output() {
    let folder = Folder::new();
    let said = folder.run(&["grow", "--rings", "1", "-", "-"], &[1]);
    assert_eq!((said.status, said.out), (0, vec![191]));
    assert_eq!(folder.run(&["count", "-"], &[255]).out, b"8\n");
    let said = folder.run(&["border", "read", "-", "-"], &[4, 0, 2, 11]);
    assert_eq!(said.out, b"level 4\n0\n13\n3\n");
    assert_eq!(folder.run(&["border", "write", "-", "-"], &said.out).out, [4, 0, 2, 11]);
    let said =
        folder.run(&"chart new --level 0 --date 2026-03-08 -".split(' ').collect::<Vec<_>>(), &[]);
    assert_eq!((said.status, said.out.len()), (0, 76));
    let said = folder.run(&["reading", "0", "-"], &said.out);
    assert_eq!((said.status, said.out), (0, b"gap, chart of 2026-03-08\n".to_vec()));
}

#[test]
fn standard_input_that_never_ends_is_cut_off() {
    let folder = Folder::new();
    folder.refused("count /dev/zero", 5);
    folder.wrong(&["reading", "0", "/dev/zero"], "/dev/zero: is not a chart file");
    folder.refused("border read /dev/zero", 12);
}

#[test]
fn a_file_is_written_whole_or_not_at_all() {
    let folder = Folder::new();
    folder.put("m", &[1]);
    folder.wrong(&["grow", "--rings", "1", "m", "no/such/out"], "no/such/out: No such file");
    folder.wrong(&["grow", "--rings", "1", "m", "."], ".: is a folder");
    // What stood there before is replaced, and nothing is left beside it.
    folder.put("out", b"older and longer");
    folder.prints("grow --rings 1 m out", "");
    assert_eq!(folder.get("out"), [191]);
    assert_eq!(folder.all().len(), 2);
}

#[test]
fn no_output_is_an_input() {
    let folder = Folder::new();
    folder.put("a", &[1]);
    folder.put("b", &[3]);
    folder.put("text", b"level 4\n0\n13\n3\n");
    folder.put("stored", &[4, 0, 2, 11]);
    folder.prints("chart new --level 0 --date 2026-03-08 c", "");
    fs::create_dir(folder.0.join("in")).unwrap();
    fs::hard_link(folder.0.join("a"), folder.0.join("in/hard")).unwrap();
    symlink("../b", folder.0.join("in/soft")).unwrap();
    for line in [
        "grow --rings 1 a a",
        "shrink --rings 1 a ./in/../a",
        "join a b in/hard",
        "join a b in/soft",
        "fill --outside 6 a in/hard",
        "mask and a b b",
        "mask minus a b a",
        "mask not in/soft b",
        "border read stored stored",
        "border write text text",
        "border mask stored stored",
        "chart export c t c",
    ] {
        folder.wrong_line(line, ": is also read (");
    }
    folder.wrong_line("chart export c out out", "out: can be written once only");
    folder.wrong_line("chart export c - -", "standard output: can be written once only");
}

#[test]
fn redirected_streams_are_known() {
    let folder = Folder::new();
    folder.put("a", &[1]);
    folder.put("text", b"0\n");
    folder.prints("chart new --level 0 --date 2026-03-08 c", "");
    let before = folder.all();
    for (script, told) in [
        ("\"$0\" grow --rings 1 - a <a", "a: is also read (standard input)"),
        ("\"$0\" grow --rings 1 a - >>a", "standard output: is also read (a)"),
        ("\"$0\" grow --rings 1 - - <a 1<>a", "standard output: is also read (standard input)"),
        ("\"$0\" count a >>a", "standard output: is also read (a)"),
        ("\"$0\" mask mark --level 0 text <text", "text: is also read (standard input)"),
        ("\"$0\" chart info c >>c", "standard output: is also read (c)"),
        ("\"$0\" chart export c a - >>a", "standard output: can be written once only"),
    ] {
        let output = folder.shell(script, &[]).output().unwrap();
        let said = String::from_utf8(output.stderr).unwrap();
        assert!(said.contains(told), "{script}: {said}");
        assert_eq!(output.status.code(), Some(2), "{script}");
        assert_eq!(folder.all(), before, "{script}");
    }
}

#[test]
fn a_closed_standard_input_is_not_an_empty_one() {
    let folder = Folder::new();
    for words in ["mask mark --level 0 out", "count -", "cell --level 1 -", "centre --level 1 -"] {
        let words: Vec<&str> = words.split(' ').collect();
        let output = folder.shell("exec \"$0\" \"$@\" <&-", &words).output().unwrap();
        let said = String::from_utf8(output.stderr).unwrap();
        assert_eq!(said, "ticklocust: standard input: is closed\n", "{words:?}");
        assert_eq!((output.status.code(), output.stdout), (Some(2), Vec::new()), "{words:?}");
    }
    assert!(folder.all().is_empty());
    // What doesn't read it doesn't need it.
    let new = ["chart", "new", "--level", "0", "--date", "2026-03-08", "c"];
    assert!(folder.shell("exec \"$0\" \"$@\" <&-", &new).status().unwrap().success());
}

#[test]
fn what_a_redirected_file_had_stays() {
    let folder = Folder::new();
    folder.put("m", &[1]);
    folder.put("log", b"older ");
    let status = folder.shell("\"$0\" grow --rings 1 m /dev/stdout >>log", &[]).status().unwrap();
    assert_eq!((status.code(), folder.get("log")), (Some(0), b"older \xBF".to_vec()));
}

#[test]
fn names_need_not_be_text() {
    let folder = Folder::new();
    folder.prints("chart new --level 0 --date 2026-03-08 c", "");
    folder.put("news", &[0; 32]);
    folder.put("cloud", &[0]);
    let mut command = folder.command(&["day", "--rings=0", "--limit=1", "--date=2026-03-09"]);
    command.args(["news", "cloud", "c"]).arg(OsStr::from_bytes(b"--to=\xFF"));
    assert_eq!(command.stdout(Stdio::null()).status().unwrap().code(), Some(0));
    assert_eq!(fs::read(folder.0.join(OsStr::from_bytes(b"\xFF"))).unwrap().len(), 76);
}

#[test]
fn links_are_followed_and_permissions_kept() {
    let folder = Folder::new();
    folder.put("m", &[1]);
    folder.put("out", &[0]);
    fs::set_permissions(folder.0.join("out"), fs::Permissions::from_mode(0o640)).unwrap();
    symlink("out", folder.0.join("link")).unwrap();
    folder.prints("grow --rings 1 m link", "");
    assert!(fs::symlink_metadata(folder.0.join("link")).unwrap().is_symlink());
    assert_eq!(folder.get("out"), [191]);
    let mode = fs::metadata(folder.0.join("out")).unwrap().permissions().mode();
    assert_eq!(mode & 0o777, 0o640);
}

#[test]
fn a_device_is_not_replaced() {
    let folder = Folder::new();
    folder.put("m", &[1]);
    folder.prints("grow --rings 1 m /dev/null", "");
    assert!(!fs::metadata("/dev/null").unwrap().is_file());
    folder.wrong(&["grow", "--rings", "1", "m", "/dev/full"], "/dev/full: No space left");
}

#[test]
fn a_broken_pipe_is_no_panic() {
    let folder = Folder::new();
    let runs: [(&[&str], &[u8]); 3] = [
        (&["grow", "--rings", "0", "-", "-"], &[1]),
        (&["count", "-"], &[1]),
        (&["border", "read", "-"], &[4, 0, 2, 11]),
    ];
    for (words, input) in runs {
        let mut child = folder.start(words);
        // Nobody reads its output any more when it gets its input.
        drop(child.stdout.take());
        child.stdin.take().unwrap().write_all(input).unwrap();
        let output = child.wait_with_output().unwrap();
        assert_eq!((output.status.code(), output.stderr), (Some(141), vec![]), "{words:?}");
    }
}

#[test]
fn a_closed_standard_error_is_no_panic() {
    let folder = Folder::new();
    let mut child = std::process::Command::new(env!("CARGO_BIN_EXE_ticklocust"))
        .args(["count", "--level", "9", "/dev/null"])
        .current_dir(&folder.0)
        .stdin(Stdio::null())
        .stderr(fs::OpenOptions::new().write(true).open("/dev/full").unwrap())
        .spawn()
        .unwrap();
    assert_eq!(child.wait().unwrap().code(), Some(3));
}
