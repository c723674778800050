//! What `help` says: a page for each subcommand, with an example that prints what is below it.

use std::process::Command;

use crate::Folder;

const SUBCOMMANDS: [&str; 26] = [
    "cell",
    "centre",
    "step",
    "code",
    "touching",
    "grow",
    "shrink",
    "join",
    "count",
    "within",
    "fill",
    "mask mark",
    "mask list",
    "mask and",
    "mask minus",
    "mask not",
    "border read",
    "border write",
    "border mask",
    "chart new",
    "chart import",
    "chart export",
    "chart info",
    "chart list",
    "day",
    "reading",
];
const GROUPS: [&str; 3] = ["mask", "border", "chart"];

fn page(folder: &Folder, topic: &str) -> String {
    let words: Vec<&str> = topic.split(' ').collect();
    let said = folder.run(&[&["help"], &words[..]].concat(), &[]);
    assert_eq!((said.status, said.err.as_str()), (0, ""), "{topic}");
    String::from_utf8(said.out).unwrap()
}

#[test]
fn each_subcommand_has_its_help() {
    let folder = Folder::new();
    let mut pages = Vec::new();
    for name in SUBCOMMANDS.into_iter().chain(GROUPS) {
        let page = page(&folder, name);
        assert!(page.starts_with(&format!("usage: ticklocust {name} ")), "{page}");
        // What an example prints is as long as it is.
        let prose = page.lines().filter(|line| !line.starts_with("  "));
        assert!(prose.clone().all(|line| line.len() <= 100), "{page}");
        let words: Vec<&str> = name.split(' ').collect();
        let asked = folder.run(&[&words[..], &["x", "--help"]].concat(), &[]);
        assert_eq!((asked.status, asked.out), (0, page.clone().into_bytes()), "{name}");
        pages.push(page);
    }
    pages.sort();
    pages.dedup();
    assert_eq!(pages.len(), SUBCOMMANDS.len() + GROUPS.len());

    let all = folder.run(&["--help"], &[]).out;
    assert_eq!(folder.run(&["help"], &[]).out, all);
    let all = String::from_utf8(all).unwrap();
    for name in SUBCOMMANDS {
        assert!(all.contains(&format!("\n  {name} ")), "{name}");
    }
    let version = concat!("ticklocust ", env!("CARGO_PKG_VERSION"), "\n");
    assert_eq!(folder.run(&["--version"], &[]).out, version.as_bytes());
}

#[test]
fn each_example_prints_what_is_below_it() {
    let command = std::path::Path::new(env!("CARGO_BIN_EXE_ticklocust"));
    let path = std::env::join_paths(
        std::iter::once(command.parent().unwrap().to_path_buf())
            .chain(std::env::split_paths(&std::env::var_os("PATH").unwrap())),
    );
    let path = path.unwrap();
    for topic in SUBCOMMANDS.into_iter().chain(["files"]) {
        let folder = Folder::new();
        let examples = examples(&page(&folder, topic));
        assert!(examples.iter().any(|(_, printed)| !printed.is_empty()), "{topic} has no example");
        for (line, printed) in examples {
            let script = format!("exec 2>&1\n{line}");
            let output = Command::new("sh")
                .args(["-c", &script])
                .current_dir(&folder.0)
                .env("PATH", &path)
                .output()
                .unwrap();
            let mut said = String::from_utf8(output.stdout).unwrap();
            if !said.is_empty() && !said.ends_with('\n') {
                said.push('\n');
            }
            assert_eq!(said, printed, "help {topic}: {line}");
            assert!(output.status.success(), "help {topic}: {line}");
        }
    }
}

/// The examples of a page: each line after `$`, and what is printed below it.
fn examples(page: &str) -> Vec<(String, String)> {
    let mut examples: Vec<(String, String)> = Vec::new();
    for line in page.lines() {
        if let Some(line) = line.strip_prefix("  $ ") {
            examples.push((line.to_string(), String::new()));
        } else if let (Some((_, printed)), Some(line)) =
            (examples.last_mut(), line.strip_prefix("  "))
        {
            *printed += &format!("{line}\n");
        }
    }
    examples
}
