"""Tries edits on the functions that they change, many in one check, before the whole crate is checked with each.

Where a function that an edit changes isn't proved with it, the crate isn't either, so the edit is refused. Such a check (`rattle check --only`) proves
these functions and those of the crate that they call, and no other. The crate as it stands is proved before, so it is the edit that the prover
refuses. A function is proved by its own text and the contracts of what it calls: so edits of different functions can be tried in one check, and none has
a part in what is said of another's function. Where a function of an edit is proved, or the check says anything else, or the edit changes what is no
function, this decides nothing: the whole crate is checked with the edit, as the kit does. The check keeps its modules in a folder of its own, where
`.ci/modules` sees them.
"""
import difflib
import os
import re
import shutil
import subprocess
import tempfile

FUNCTION = re.compile(r"( *)(?:pub(?:\([a-z]+\))? )?(?:const )?fn (\w+)")
BLOCK = re.compile(r"impl(?:<[^{]*?>)? (?:(.+) for )?([^{]+?)(?: where .*)?(?: \{)?$")
# How a check of some functions ends.
NOT_ALL = re.compile(r"only=(\d+) proved=(\d+)")
REFUSED = "logic=not-proved for the functions that the edit changes\n"
# What is said of a function that is not proved, and not only since it calls one that is not.
UNPROVED = "not proved|no proof: .* did not prove .*"


def changed_lines(old, new):
    """Returns the numbers of the lines of a new text that differ from the old one, or that stand where lines are gone."""
    found = set()
    for kind, _, _, first, last in difflib.SequenceMatcher(None, old, new, autojunk=False).get_opcodes():
        if kind != "equal":
            found.update(range(first, max(last, first + 1)))
    return sorted(found)


def enclosing(lines, at):
    """Returns the name of the function that has a line, with its type, or None where the line is in no function."""
    for first in range(min(at, len(lines) - 1), -1, -1):
        found = FUNCTION.match(lines[first])
        if found:
            break
    else:
        return None
    margin, name = found.groups()
    end = next((it for it in range(first, len(lines)) if lines[it] == margin + "}"), first)
    if not first <= at <= end:
        return None
    if not margin:
        return name
    header = next((it for it in reversed(lines[:first]) if it and not it[0].isspace() and it[0] not in "/#{}"), "")
    block = BLOCK.match(header)
    if not block:
        return None
    # (the prover's name of a trait has no path and no lifetime: `VerdictDisplay` for fmt::Display)
    words = lambda text: "".join(re.findall(r"\w+", re.sub(r"'\w+|\w+::", "", text or "")))
    kind = re.match(r"\w+", block[2].strip())
    return kind and f"{kind[0]}{words(block[1])}::{name}"


def functions_of(folder, texts):
    """Returns the functions that new texts of a crate's files change, as the prover names them, or none where something else is changed too."""
    found = set()
    for path, text in texts.items():
        if not path.startswith("src/") or not path.endswith(".rt"):
            return []
        with open(f"{folder}/{path}", encoding="utf-8") as it:
            old = it.read().split("\n")
        new = text.split("\n")
        module = [it for it in path[len("src/") : -len(".rt")].split("/") if it not in ("lib", "main", "mod")]
        for at in changed_lines(old, new):
            if new[at : at + 1] and new[at].startswith("use "):
                continue
            name = enclosing(new, at)
            if not name:
                return []
            found.add("::".join([*module, name]))
    return sorted(found)


def wide(read_edit, crate, edits):
    """Returns how many edits of a crate change something else than functions."""
    texts = [read_edit(it, crate.folder)[0] for it in edits]
    return sum(1 for it in texts if it and not functions_of(crate.folder, it))


def apart(read_edit, crate, edits):
    """Returns the functions of each edit of a first batch, of which no two change one function, with the texts of all these edits in one."""
    batch, texts = {}, {}
    with tempfile.TemporaryDirectory() as room:
        shutil.copytree(f"{crate.folder}/src", f"{room}/src")
        for edit in edits:
            names = functions_of(crate.folder, read_edit(edit, crate.folder)[0] or {})
            taken = {it for each in batch.values() for it in each}
            changed = read_edit(edit, room)[0] if names and not taken & set(names) else None
            if changed:
                batch[edit] = names
                texts.update(changed)
                for path, text in changed.items():
                    with open(f"{room}/{path}", "w", encoding="utf-8") as it:
                        it.write(text)
    return batch, texts


def said_of(crate, name, said):
    """Returns what a check said of a function that it refuses: the lines before its verdict, and those on its answers. It returns None where the function
    is proved, or is not only since another one isn't."""
    ends = [at for at, line in enumerate(said) if line.startswith("fn ")]
    verdict = next((at for at in ends if re.fullmatch(rf"fn {crate.name}::{re.escape(name)}: ({UNPROVED})", said[at])), None)
    if verdict is None:
        return None
    first = max((at for at in ends if at < verdict), default=-1) + 1
    *modules, last = name.split("::")
    answers = re.compile("".join(rf"{re.escape(it)}/" for it in ["./proofs", *modules]) + rf"\+?{re.escape(last)}/")
    if any(answers.search(line) and "is not checked until" in line for line in said):
        return None
    return [line for at, line in enumerate(said) if answers.match(line) or first <= at <= verdict and not answers.match(line)]


def together(checked, read_edit, crate, edits, flags):
    """Tries edits that change different functions in one check, and returns what was said of those of which each function is refused. Where the check
    says nothing, as with an edit that doesn't compile, each half is tried."""
    batch, texts = apart(read_edit, crate, edits)
    if not batch:
        return {}
    names = sorted({it for each in batch.values() for it in each})
    with tempfile.TemporaryDirectory(prefix=f"rt-edit-{os.getpid()}-") as room:
        ran = checked(crate, texts, [*flags, *[word for name in names for word in ("--only", name)]], room)
    said = ran.stdout.rstrip("\n").split("\n")
    if ran.returncode == 1 and NOT_ALL.fullmatch(said[-1]):
        found = {name: said_of(crate, name, said) for name in names}
        refused = {edit: changed for edit, changed in batch.items() if all(found[it] for it in changed)}
        return {edit: "\n".join(line for it in changed for line in found[it]) for edit, changed in refused.items()}
    tried = list(batch)
    if len(tried) == 1:
        return {}
    half = len(tried) // 2
    return together(checked, read_edit, crate, tried[:half], flags) | together(checked, read_edit, crate, tried[half:], flags)


def refused_by_functions(checked, read_edit, crate, edits, flags):
    """Tries edits in batches that change different functions, and returns what was said of those that are refused."""
    found, left = {}, list(edits)
    while left:
        refused = together(checked, read_edit, crate, left, flags)
        if not refused:
            break
        found.update(refused)
        left = [it for it in left if it not in refused]
    return found
