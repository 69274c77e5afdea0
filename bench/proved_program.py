"""What scripts share that measure a program of their own: it is made of texts, proved and built.

A program stands in a folder of its own, over copies of this repository's crates below it. `rt ci`
proves and builds it there. What `rt ci` proved on this machine isn't proved again, as long as the
files of a crate and of those below it are the same. The texts that programs over lanes share stand
here too.
"""
import pathlib
import re
import shutil
import subprocess
import sys

TOP = pathlib.Path(__file__).resolve().parent.parent
# What isn't copied of a crate: what rt made, and edits, which prove nothing of a program.
LEFT_OUT = shutil.ignore_patterns("out", "must-fail", "more-edits")
# The status of each program without words, as `rt ci` runs it.
NO_WORDS = 2

MARKERS = r"""
// Markers that cover no node. They may be put on any lane.
use flow_dag::Graph;
use lane_core::{Origin, Tx};
use tuple_trace::Item;

/// Where a lane of markers begins: in a graph of one node.
pub fn origin() -> Origin {
    let graph = Graph {
        n: 1,
        child: [0; 64],
    };
    Origin { graph, from: 0 }
}

/// Puts a marker. Returns whether the lane had room.
pub fn put<N, T: Tx<N>>(need: &mut N, tx: &mut T, request: u64) -> bool {
    tx.put(need, Item::Mark { request, cover: 0 }).is_ok()
}
"""

ASKED = r"""
// The program's words.
use std::alloc::Global;
use std::env;
use std::process::ExitCode;
use tuple_trace::{Items, NoMemory};

/// What the program does: over which form of lane, what, and how often.
#[derive(Drop)]
pub struct Asked {
    pub is_ring: bool,
    pub what: String,
    pub count: u64,
}

impl Asked {
    /// Reads the program's words: `ring` or another form, what to do, and a number. Returns `None`
    /// if they aren't three, or memory runs out.
    pub fn read(rt: &HostRuntime, alloc: Global) -> Option<Asked> {
        let mut words = Items::new(alloc);
        for word in env::args(rt).ok()?.skip(1) {
            words.push(word).ok()?;
        }
        let [form, what, count] = words.as_slice() else {
            return None;
        };
        Some(Asked {
            is_ring: form.as_str() == "ring",
            what: what.clone().ok()?,
            count: count.parse::<u64>().unwrap_or(0),
        })
    }

    /// The status of a program that did this as often, or not.
    pub fn status(&self, done: &Result<u64, NoMemory>) -> ExitCode {
        match done {
            Ok(done) if *done == self.count => ExitCode::from(0),
            _ => ExitCode::from(7),
        }
    }
}
"""

MARKER_ANSWERS = r"""
use Rattle.{name}.proofs.MarkLemmas.{MayFollow-no_cover}
use Rattle.{name}.proofs.markers.put.Goals as goal

pub put-requires : goal.put-requires
put-requires g c = MayFollow-no_cover (g.T.Tx.state c.args.tx.now).origin _ _
"""


def files_of(crate, files, name):
    """The texts of some files of a crate of tests, as files of the program of this name.

    `files` has the name that each gets, with its own."""
    texts = {}
    for to, source in files.items():
        text = (TOP / "crates" / crate / source).read_text(encoding="utf-8")
        text = text.replace(f"Rattle.{crate}.proofs.tests.", f"Rattle.{name}.proofs.")
        texts[to] = text.replace(f"Rattle.{crate}.", f"Rattle.{name}.")
    return texts


def lane_texts(name):
    """The files that programs over lanes share, for the program of this name."""
    return {
        "src/asked.rt": ASKED,
        "src/markers.rt": MARKERS,
        "proofs/markers/put/Answers.antt": MARKER_ANSWERS.replace("{name}", name),
        **files_of("test_layers", {"proofs/MarkLemmas.antt": "proofs/MarkLemmas.antt"}, name),
    }


def libraries(used):
    """The crates that a program stands on which uses these, with their lines of crates.txt.

    The kit's aren't listed."""
    lines = (TOP / "crates.txt").read_text(encoding="utf-8").splitlines()
    listed = {re.split("[ :]", line)[0]: line for line in lines if not line.startswith("#")}
    found, left = set(), list(used)
    while left:
        crate = left.pop()
        if crate in listed and crate not in found:
            found.add(crate)
            left += listed[crate].partition(":")[2].split()
    return {crate: line for crate, line in listed.items() if crate in found}


def make(folder, name, used, texts):
    """Makes the program of this name in the folder, of these texts and over the crates it uses."""
    crates = libraries(used)
    for crate in crates:
        shutil.copytree(TOP / "crates" / crate, folder / "crates" / crate, ignore=LEFT_OUT)
    shutil.copy(TOP / "HANDLES", folder / "HANDLES")
    lines = [*crates.values(), f"{name} status={NO_WORDS}: {' '.join(used)}"]
    files = {f"crates/{name}/{file}": text.lstrip("\n") for file, text in texts.items()}
    files["crates.txt"] = "\n".join(lines) + "\n"
    # The lists of lemmas and of definitions.
    for part in ("proofs", "specs"):
        own = [re.fullmatch(rf"{part}/(\w+)\.antt", file) for file in texts]
        modules = sorted(file[1] for file in own if file)
        if modules:
            files[f"crates/{name}/{part}/Lib.antt"] = "".join(f"pub mod {it}\n" for it in modules)
    for file, text in files.items():
        path = folder / file
        path.parent.mkdir(parents=True, exist_ok=True)
        path.write_text(text, encoding="utf-8")


def build(folder, name, used, texts):
    """Makes the program in the folder, proves it and builds it. Returns where it stands."""
    make(folder, name, used, texts)
    done = subprocess.run(["rt", "ci"], cwd=folder, capture_output=True, text=True)
    if done.returncode != 0:
        sys.exit("The program was not built:\n" + done.stdout + done.stderr)
    return folder / "crates" / name / "out" / name


def total(program, *words):
    """How many instructions a call of the program takes, by callgrind."""
    before = ["valgrind", "--tool=callgrind", "--callgrind-out-file=/dev/null"]
    call = [*before, str(program), *map(str, words)]
    done = subprocess.run(call, capture_output=True, text=True, check=True)
    return int(re.search(r"Collected : (\d+)", done.stderr).group(1))


def instructions(program, *words):
    """How many instructions an item takes, over two numbers of items.

    So the start of the program falls out."""
    return (total(program, *words, 11_000) - total(program, *words, 1_000)) / 10_000
