//! The script `build`, over stand-ins for the toolchain: what it proves again, and what it shows meanwhile.

mod common;
#[path = "common/mock.rs"]
mod mock;

use std::fs;
use std::io::{BufRead, BufReader};
use std::process::Stdio;

use common::{run, Told};
use mock::Mock;

const WARM: [&str; 1] = ["rt version"];
const WHOLE: [&str; 4] =
    ["rt version", "rt run threshold --cpu x86-64", "rt lib zvonurel_c --cpu x86-64", "rt version"];
const FAILED: [&str; 2] = ["rt version", "rt run threshold --cpu x86-64"];
const ARCHIVE: &str = "target/staticlib/libzvonurel_c.a";
const PROGRAM: &str = "target/bin/threshold";

fn build(mock: &Mock) -> Told {
    run(&mut mock.command(mock.path("build")))
}

/// A repository in which all was built.
fn built() -> Mock {
    let mock = Mock::new();
    assert_eq!(build(&mock).status, Some(0));
    assert_eq!(mock.calls(), WHOLE);
    mock
}

/// Builds again, with just these calls.
fn calls_again(mock: &Mock, calls: &[&str], why: &str) {
    let told = build(mock);
    assert_eq!((told.status, told.out.as_str()), (Some(0), ""), "{why}: {told:?}");
    assert_eq!(mock.calls(), calls, "{why}");
}

#[test]
fn what_has_not_changed_is_not_proved_again() {
    let mock = built();
    calls_again(&mock, &WARM, "nothing changed");
    mock.folder.write("crates/one/must-fail/wrong.edit", "an edit");
    mock.folder.write("docs/PAGE.md", "a page");
    mock.folder.write("crates/one/out/rlib/stamp", "what rt keeps");
    calls_again(&mock, &WARM, "only what is not proved changed");
    fs::remove_dir_all(mock.path("crates/zvonurel_c/out")).expect("it was there");
    fs::remove_dir_all(mock.path("crates/threshold/out")).expect("it was there");
    calls_again(&mock, &WARM, "rt ci was run");
}

#[test]
fn what_has_changed_is_proved_again() {
    type Change = (&'static str, fn(&Mock));
    let changes: [Change; 11] = [
        ("a source", |mock| drop(mock.folder.write("crates/one/src/lib.rt", "// two\n"))),
        ("a new file", |mock| drop(mock.folder.write("crates/one/proofs/deep/er/Proof.antt", ""))),
        ("a folder of that name deeper down", |mock| drop(mock.folder.write("crates/one/src/out/more.rt", ""))),
        ("a program's input", |mock| drop(mock.folder.write("crates/threshold/stdin", "another index\n"))),
        ("a hidden file", |mock| drop(mock.folder.write("crates/one/.hidden", ""))),
        ("an edit's neighbour", |mock| drop(mock.folder.write("crates/one/must-fail/README", ""))),
        ("the crates", |mock| drop(mock.folder.write("crates.txt", "one: two\n"))),
        ("a damaged archive", |mock| drop(mock.folder.write(ARCHIVE, "archivf\n"))),
        ("no archive", |mock| fs::remove_file(mock.path(ARCHIVE)).expect("it was there")),
        ("a damaged program", |mock| drop(mock.folder.script(PROGRAM, "true"))),
        ("no program", |mock| fs::remove_file(mock.path(PROGRAM)).expect("it was there")),
    ];
    for (why, change) in changes {
        let mock = built();
        change(&mock);
        calls_again(&mock, &WHOLE, why);
        let whole = ["tools/threshold", PROGRAM].map(|name| fs::read(mock.path(name)).expect("a file"));
        assert_eq!(whole[0], whole[1], "{why}: the program was built again");
        assert_eq!(fs::read_to_string(mock.path(ARCHIVE)).expect("an archive"), "archive\n", "{why}");
        calls_again(&mock, &WARM, why);
    }
}

#[test]
fn a_file_that_was_moved_or_removed_is_a_change() {
    let mock = Mock::new();
    mock.folder.write("crates/one/src/more.rt", "// more\n");
    build(&mock);
    mock.calls();
    fs::rename(mock.path("crates/one/src/more.rt"), mock.path("crates/one/src/other.rt")).expect("moved");
    calls_again(&mock, &WHOLE, "moved");
    fs::remove_file(mock.path("crates/one/src/other.rt")).expect("removed");
    calls_again(&mock, &WHOLE, "removed");
}

/// A folder elsewhere that a link leads to is part of the sources.
#[test]
fn what_a_link_leads_to_is_a_source() {
    let mock = Mock::new();
    mock.folder.write("elsewhere/more.rt", "// more\n");
    std::os::unix::fs::symlink(mock.path("elsewhere"), mock.path("crates/one/src/linked")).expect("a link");
    build(&mock);
    mock.calls();
    calls_again(&mock, &WARM, "nothing changed");
    mock.folder.write("elsewhere/more.rt", "// other\n");
    calls_again(&mock, &WHOLE, "the file behind the link changed");
}

/// Sources that are changed while they are proved, and changed back, are not those that the archive is of.
#[test]
fn a_change_meanwhile_is_no_proof() {
    let mock = built();
    let first = mock.path("crates/one/src/lib.rt");
    let rt = fs::read_to_string(mock.path("tools/rt")).expect("the stand-in");
    mock.folder.write("crates/one/src/lib.rt", "// two\n");
    let edit = format!("[ $1 != lib ] || echo '// three' >'{}'", first.display());
    mock.folder.script("tools/rt", &format!("{edit}\n{}", rt.split_once('\n').expect("a first line").1));
    let told = build(&mock);
    assert_eq!((told.status, told.out.as_str()), (Some(1), ""));
    assert!(told.err.ends_with("build: the sources changed meanwhile: build again.\n"), "{}", told.err);
    mock.calls();
    mock.folder.script("tools/rt", rt.split_once('\n').expect("a first line").1);
    mock.folder.write("crates/one/src/lib.rt", "// two\n");
    calls_again(&mock, &WHOLE, "no stamp was left");
}

#[test]
fn another_version_of_the_toolchain_proves_again() {
    let mock = built();
    for (kit, calls) in [("2", &WHOLE[..]), ("2", &WARM), ("1", &WHOLE)] {
        assert_eq!(run(mock.command(mock.path("build")).env("KIT", kit)).status, Some(0));
        assert_eq!(mock.calls(), calls);
    }
}

/// Where a proof fails all that was said is shown, and the next build proves again.
#[test]
fn a_failure_is_shown_whole_and_leaves_no_stamp() {
    let mock = built();
    mock.folder.write("crates/one/src/lib.rt", "// wrong\n");
    for _ in 0..2 {
        let told = run(mock.command(mock.path("build")).env("FAILING", "1"));
        assert_eq!((told.status, told.out.as_str()), (Some(1), ""));
        let end = "rt: chose --jobs 2 for one\nfn one: proved\nwhat is wrong\nFAILED: rt run threshold\n";
        assert!(told.err.ends_with(end), "{}", told.err);
        let left = [ARCHIVE, PROGRAM].map(|name| mock.path(name).exists());
        assert_eq!(left, [false; 2], "nothing is left that could be taken for proved");
        assert_eq!(mock.calls(), FAILED);
    }
    mock.folder.write("crates/one/src/lib.rt", "// one\n");
    calls_again(&mock, &WHOLE, "the sources are those of the first build");
}

#[test]
fn progress_is_shown_line_by_line() {
    let mock = Mock::new();
    // once its line was seen the prover goes on, and else it says so after a while
    let rt = "[ $1 = run ] || exit 0\necho 'fn one: proved'; echo 'rt: chose --jobs 2 for one'\n\
              for i in 1 2 3 4 5 6 7 8 9 10; do [ -f \"$CALLS\" ] && exit 1; sleep 0.5; done\n\
              echo 'rt: nobody saw that'; exit 1";
    mock.folder.script("tools/rt", rt);
    let mut child = mock.command(mock.path("build")).stderr(Stdio::piped()).spawn().expect("it runs");
    let mut lines = BufReader::new(child.stderr.take().expect("its errors")).lines().map(|line| line.expect("text"));
    assert_eq!(lines.next().as_deref(), Some("proving and building; from nothing this takes some minutes"));
    assert_eq!(lines.next().as_deref(), Some("rt: chose --jobs 2 for one"));
    mock.folder.write("calls", "");
    let rest: Vec<String> = lines.collect();
    assert_eq!(rest, ["fn one: proved", "rt: chose --jobs 2 for one", "FAILED: rt run threshold"]);
    assert_eq!(child.wait().expect("it ends").code(), Some(1));
}

#[test]
fn it_takes_no_argument_and_works_from_any_folder() {
    let mock = Mock::new();
    let told = run(mock.command(mock.path("build")).arg("all"));
    assert_eq!((told.status, told.err.as_str()), (Some(1), "Usage: build, with no argument.\n"));
    assert!(mock.calls().is_empty());
    let told = run(mock.command("../build").current_dir(mock.path("crates")));
    assert_eq!(told.status, Some(0));
    assert!(mock.path(ARCHIVE).is_file() && mock.path(PROGRAM).is_file());
}

/// A toolchain that does not say what it is proves nothing.
#[test]
fn no_version_is_a_failure() {
    let mock = Mock::new();
    mock.folder.script("tools/rt", "echo \"rt $*\" >>\"$CALLS\"\n[ \"$1\" != version ]");
    let told = build(&mock);
    assert_ne!(told.status, Some(0));
    assert_eq!(mock.calls(), ["rt version"]);
    assert!(!mock.path("target").exists(), "{told:?}");
}
