//! A repository with the script `build`, those of the example and three crates, and stand-ins for `rt` and `cargo` that
//! note each call and build nothing that is proved.

use std::path::{Path, PathBuf};
use std::process::Command;
use std::{env, fs};

use crate::common::{repository, Folder, AMMONIA, ARCHIVE, LOG, MOMENT, RISE, TANKS, WORST};

/// As rt does, it is run in a crate's folder, leaves a program that has its mark, and writes an archive each time.
const RT: &str = r#"
echo "rt $*" >>"$CALLS"
[ "$1" = version ] && { echo "kit ${KIT:-1}"; exit; }
[ "${PWD##*/}" = "$2" ] || { echo "rt: the repository does not name this crate $2"; exit 2; }
echo "rt: chose --jobs 2 for one"
echo "fn one: proved"
[ -z "${FAILING:-}" ] || { echo "what is wrong"; exit 1; }
mkdir -p out
case $1 in
run)
    [ -f out/threshold.stamp ] || cp "$THRESHOLD" out/threshold
    echo proved >out/threshold.stamp
    echo "rt: running out/threshold"
    cat
    ;;
lib) echo archive >out/libzvonurel_c.a ;;
esac"#;

const CARGO: &str = r#"
echo "cargo $*" >>"$CALLS"
[ -z "${CARGO_FAILING:-}" ] || { echo "error: it does not compile" >&2; exit 101; }
echo "ZVONUREL_LIB=${ZVONUREL_LIB#"$PWD"/}" >>"$CALLS"
mkdir -p target/cargo/x86_64-unknown-linux-gnu/release
cp "$TANKS" "$AMMONIA" "$ARCHIVE" "$MOMENT" "$RISE" "$WORST" "$LOG" target/cargo/x86_64-unknown-linux-gnu/release
echo "noise on standard output""#;

/// Lists what the demo draws for `example/week.txt`.
const THRESHOLD: &str = r#"cat >/dev/null; cat "$LISTING""#;

pub struct Mock {
    pub folder: Folder,
}

impl Mock {
    pub fn new() -> Mock {
        let folder = Folder::new();
        fs::create_dir(folder.path("example")).expect("a folder");
        let names = "build example/shared.sh example/run example/week.txt example/ammonia example/ammonia.txt \
                     example/archive example/archive.wah example/moment example/rise example/worst example/log \
                     example/log.txt";
        for name in names.split(' ') {
            let copied = Command::new("cp").arg(repository(name)).arg(folder.path(name)).status();
            assert!(copied.expect("cp").success());
        }
        let sources = [
            ("crates.txt", "one:\n"),
            ("crates/one/src/lib.rt", "// one\n"),
            ("crates/zvonurel_c/src/lib.rt", "// the exports\n"),
            ("crates/threshold/src/main.rt", "// the program\n"),
            ("crates/threshold/stdin", "an index\n"),
        ];
        for (name, text) in sources {
            folder.write(name, text);
        }
        for (name, text) in [("tools/rt", RT), ("tools/cargo", CARGO), ("tools/threshold", THRESHOLD)] {
            folder.script(name, text);
        }
        Mock { folder }
    }

    pub fn path(&self, name: &str) -> PathBuf {
        self.folder.path(name)
    }

    /// A command with the stand-ins before all other programs.
    pub fn command(&self, program: impl AsRef<Path>) -> Command {
        let mut command = Command::new(program.as_ref());
        let path = env::var("PATH").expect("a PATH");
        command
            .env("PATH", format!("{}:{path}", self.path("tools").display()))
            .env("CALLS", self.path("calls"))
            .env("TANKS", TANKS)
            .env("AMMONIA", AMMONIA)
            .env("ARCHIVE", ARCHIVE)
            .env("MOMENT", MOMENT)
            .env("RISE", RISE)
            .env("WORST", WORST)
            .env("LOG", LOG)
            .env("THRESHOLD", self.path("tools/threshold"))
            .env("LISTING", self.path("listing"));
        command
    }

    /// The calls since this was last asked.
    pub fn calls(&self) -> Vec<String> {
        let calls = fs::read_to_string(self.path("calls")).unwrap_or_default();
        fs::remove_file(self.path("calls")).ok();
        calls.lines().map(str::to_string).collect()
    }
}
