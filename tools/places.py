#!/usr/bin/env python3
"""Counts, in crates/*/src, the places that docs/DESIGN-PASS.md speaks of.

    tools/places.py [COMMIT]           the counts, of the working tree where no commit is named
    tools/places.py [COMMIT] --list    each place as well

A pattern finds candidates: the page says of each which it is. A line counts once for each pattern.
"""
import collections, pathlib, re, subprocess, sys

LINES = [
    ("1a", "a match that hands an Option or a Result on, case by case",
     r"^\s*(None|Some\(\w+\)|Ok\(\w+\)|Ok\(\(\)\)|Err\(\w+\)|Err\(_\)) => (return )?(None|Some\(|Ok\(|Err\(|self\b|\w+,$|\w+\.\w+,$)"),
    ("1b", "a `let .. else` that hands an error on", r"let (Some|Ok)\(.*\) = .* else"),
    ("1c", "a number for a refusal or an answer",
     r"\banswer: u8|\banswer (==|!=) 0|\bOwn\((u8|\w+\.number\(\)|[A-Z_]+)\)|\breason\(answer|pub fn call\(.*-> u8|struct Answer\(pub u8\)|: u8 = [12];$"),
    ("1d", "a flag in a struct", r"^\s+(pub(\(crate\))? )?\w+: bool,"),
    ("1e", "an enum with few derives", None),
    ("2a", "a function `number`", r"fn number\("),
    ("2b", "a match on the kind with twin branches", r"^\s*match kind \{"),
    ("2c", "a constant that several crates write", r"^(pub )?const (UNUSED|NODE|VISIT|RUDDER|PLOTTER|ROW|ONE|NO_NODE|NO_VISIT)\b"),
    ("2d", "an enum of five ends", r"^\s*(VisitsFull|Verdict::VisitsFull|TaskVerdict::VisitsFull)\b.*,?$"),
    ("3a", "a loop over numbers", r"for \w+ in \(?\d+\.\."),
    ("3b", "a loop without `for`", r"^\s*('\w+: )?(loop|while)\b"),
    ("3c", "a counter that code raises or lowers", r"\w+ [+-]= 1;"),
    ("4a", "a cast by `as`", r" as (u8|u16|u32|u64|usize|i16|i32)\b"),
    ("4b", "a match that only tells true from false", r"=> (true|false),$"),
    ("4c", "Display by hand", r"^impl.*fmt::Display for"),
    ("4d", "From by hand", r"^impl.* From<.*> for"),
    ("5a", "`nodes` and `visits` as parameters", r"^\s+nodes: &mut \[|nodes: &mut \[Node<\w+>\], visits"),
    ("5b", "`kind` and `tasks` as parameters", r"kind: Kind, tasks: &\[Task\]"),
    ("6a", "an array with a fixed length", r"\[\w+(::\w+)?; \d+\]"),
    ("7a", "a trait of one function", None),
    ("7b", "a match on which policy, test or step", r"policy\.pick\(|^\s*match (self\.)?(order|event|key|flag)\b"),
]


def files(commit):
    if commit:
        names = subprocess.run(["git", "ls-tree", "-r", "--name-only", commit, "crates"],
                               capture_output=True, text=True, check=True).stdout.split("\n")
        for name in names:
            if re.fullmatch(r"crates/\w+/src/.*\.rt", name):
                yield name, subprocess.run(["git", "show", f"{commit}:{name}"],
                                           capture_output=True, text=True, check=True).stdout
    else:
        for path in sorted(pathlib.Path("crates").glob("*/src/**/*.rt")):
            yield str(path), path.read_text()


def bare_enums(name, text):
    """Enums without one of Debug, PartialEq and Eq."""
    for m in re.finditer(r"(?m)^(#\[derive\((.*)\)\]\n)?(pub(\(crate\))? )?enum (\w+)", text):
        derived = m.group(2) or ""
        if not all(word in derived for word in ("Debug", "PartialEq", "Eq")):
            yield name, text.count("\n", 0, m.start(5)) + 1, f"enum {m.group(5)} derives {derived or 'nothing'}"


def small_traits(name, text):
    for m in re.finditer(r"(?ms)^(pub )?trait (\w+).*?^}", text):
        if len(re.findall(r"\bfn ", m.group(0))) == 1:
            yield name, text.count("\n", 0, m.start(2)) + 1, f"trait {m.group(2)}"


def main():
    words = [w for w in sys.argv[1:] if w != "--list"]
    listed = "--list" in sys.argv
    found = collections.defaultdict(list)
    for name, text in files(words[0] if words else None):
        found["1e"] += bare_enums(name, text)
        found["7a"] += small_traits(name, text)
        for at, line in enumerate(text.split("\n"), 1):
            for key, _, pattern in LINES:
                if pattern and not line.lstrip().startswith(("//", "ensures", "requires", "ghost")) and re.search(pattern, line):
                    found[key].append((name, at, line.strip()))
    for key, title, _ in LINES:
        print(f"{key} {title}: {len(found[key])}")
        if listed:
            for name, at, line in found[key]:
                print(f"      {name}:{at}: {line}")


main()
