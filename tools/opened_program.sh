# Read by opened.sh and bench/open.sh, which set `top` and `folder`: writes a program that opens files,
# makes it beside copies of the crates in the folder, and sets `opened`.
mkdir -p "$folder/made"
cp -r "$top/crates" "$top/crates.txt" "$folder/made"
mkdir -p "$folder/made/crates/opened/src"
cat >"$folder/made/crates/opened/src/main.rt" <<'RATTLE'
//! Loads files, reads their values or opens them as modules, and counts them. It serves a tool and a
//! bench, and is no part of beamkit.
#![tactic(auto)]

use beam_module::{ModuleRefusal, open_module, read_file};
use bk_base::Text;
use bk_port::{FileHost, load};
use std::alloc::Global;
use std::env::args;
use std::io;

/// What is done with each file.
#[derive(Clone, Copy, PartialEq, Eq)]
enum Task {
    Load,
    Read,
    Open,
}

// The task of the first word.
fn task_of(word: Option<&[u8]>) -> Task {
    match word {
        Some(b"read") => Task::Read,
        Some(b"open") => Task::Open,
        _ => Task::Load,
    }
}

// How many functions there are, where the file is opened.
fn functions_of(alloc: Global, task: Task, bytes: &[u8]) -> Result<usize, ModuleRefusal> {
    match task {
        Task::Load => Ok(0),
        Task::Read => {
            read_file(alloc, bytes)?;
            Ok(0)
        }
        Task::Open => Ok(open_module(alloc, bytes)?.functions()),
    }
}

fn main(rt: HostRuntime) -> io::Result<()> {
    let alloc = rt.alloc();
    let mut words = args(&rt)?.skip(1);
    let task = task_of(words.next().as_ref().map(|word| word.as_bytes()));
    let (mut files, mut functions) = (0u64, 0u64);
    for word in words {
        let name = Text::from(word);
        let mut host = FileHost::new(&rt, rt.stdin());
        match load(alloc, &mut host, &name) {
            Ok(bytes) => match functions_of(alloc, task, bytes.as_slice()) {
                Ok(found) => {
                    files = files.saturating_add(1);
                    functions = functions.saturating_add(found as u64);
                }
                Err(refusal) => println!(rt; "{}: {refusal}", name.as_str())?,
            },
            Err(fault) => println!(rt; "{}: {fault}", name.as_str())?,
        }
    }
    println!(rt; "{files} files, {functions} functions")
}
RATTLE
echo "opened: bk_base bk_port beam_module" >>"$folder/made/crates.txt"
(cd "$folder/made/crates/opened" && rt run) >"$folder/log" 2>&1 || {
    cat "$folder/log" >&2
    exit 1
}
opened=$folder/made/crates/opened/out/opened
