#!/usr/bin/env python3
"""Brings the repository's own names to today's spelling, once, after port.py has run; and the must-fail edits with them.

usage: python3 tools/respell.py names          in the folder that port.py has turned: names in crates/
       python3 tools/respell.py edits LANDED   there, after `names`: each must-fail edit of the commit LANDED, with the same wrong meaning

Functions, fields and constructors in camelCase become snake_case; lemmas follow the table respell_names.txt beside this file: a dash
stays where it joins two functions' names, and a lemma that would have its function's name ends in _lem. An edit is turned by turning
the whole file that it makes, as port.py and `names` turn any file, and taking the lines in which that differs.
"""

import difflib
import os
import re
import shutil
import subprocess
import sys
import tempfile

HERE = os.path.dirname(os.path.realpath(__file__))
TOKEN = re.compile(r"[^\s(){}\[\];,.:`\"]+")
CAMEL = re.compile(r"[a-z][a-z0-9]*[A-Z]")


def toolchain():
    """The toolchain's folder, which holds the page that `rt doc` names."""
    page = subprocess.run(["rt", "doc"], check=True, stdout=subprocess.PIPE, text=True).stdout.strip()
    return os.path.dirname(page)


def table():
    with open(os.path.join(HERE, "respell_names.txt"), encoding="utf-8") as f:
        return dict(line.split() for line in f)


def snake(word):
    return re.sub(r"([a-z0-9])([A-Z])", lambda m: m.group(1) + "_" + m.group(2).lower(), word)


def respelled(text, names):
    def one(m):
        word = m.group(0)
        if word in names:
            return names[word]
        return snake(word) if CAMEL.match(word) else word

    return TOKEN.sub(one, text)


def sources(root):
    for folder, dirs, files in os.walk(os.path.join(root, "crates")):
        dirs[:] = [d for d in dirs if d != "out"]
        for name in files:
            if name.endswith((".rt", ".antt")):
                yield os.path.join(folder, name)


def turn_names(root):
    names = table()
    for path in sources(root):
        with open(path, encoding="utf-8") as f:
            text = f.read()
        new = respelled(text, names)
        if new != text:
            with open(path, "w", encoding="utf-8") as f:
                f.write(new)
    for crate in os.listdir(os.path.join(root, "crates")):
        run("rt", "fmt", where=os.path.join(root, "crates", crate))


def edit_of(path):
    """The file that an edit changes, and its pairs of old and new text."""
    target, pairs, old = None, [], None
    with open(path, encoding="utf-8") as f:
        for line in f.read().splitlines():
            if line.startswith("file: "):
                target = line[6:]
            elif line.startswith("old: "):
                old = line[5:]
            elif line.startswith("new: "):
                pairs.append((old, line[5:]))
    return target, pairs


def run(*words, where):
    subprocess.run(words, cwd=where, check=True, stdout=subprocess.DEVNULL)


def changed_lines(a, b):
    """The lines in which b differs from a, pair by pair; None where the two do not go line by line."""
    pairs = []
    for tag, i, j, k, m in difflib.SequenceMatcher(None, a, b, autojunk=False).get_opcodes():
        if tag != "equal":
            if j - i != m - k:
                return None
            pairs += list(zip(a[i:j], b[k:m]))
    return pairs


def turn_edits(root, landed):
    top = tempfile.mkdtemp(prefix="respell-")
    archive = subprocess.run(["git", "archive", landed], cwd=root, check=True, stdout=subprocess.PIPE).stdout
    subprocess.run(["tar", "-x", "-C", top], input=archive, check=True)
    made = {}
    for crate in sorted(os.listdir(os.path.join(top, "crates"))):
        folder = os.path.join(top, "crates", crate)
        for name in sorted(os.listdir(os.path.join(folder, "must-fail"))):
            target, pairs = edit_of(os.path.join(folder, "must-fail", name))
            with open(os.path.join(folder, target), encoding="utf-8") as f:
                text = f.read()
            for old, new in pairs:
                assert text.count(old) == 1, (crate, name, old)
                text = text.replace(old, new)
            stem, end = os.path.splitext(target)
            copy = f"{stem}__{name[:-5]}{end}"
            with open(os.path.join(folder, copy), "w", encoding="utf-8") as f:
                f.write(text)
            made[crate, name] = (target, copy, pairs)
    run("git", "init", "-q", where=top)
    run("git", "add", "-A", where=top)
    run("git", "-c", "user.name=port", "-c", "user.email=port@localhost", "commit", "-qm", "copies", where=top)
    run(sys.executable, os.path.join(toolchain(), "port", "port.py"), where=top)
    turn_names(top)
    names = table()
    for (crate, name), (target, copy, told) in made.items():
        folder = os.path.join(top, "crates", crate)
        with open(os.path.join(folder, target), encoding="utf-8") as f:
            whole = f.read()
        if all(whole.count(old) == 1 and respelled(new, names) == new and " ." not in new for old, new in told):
            continue  # it stands as it was
        with open(os.path.join(folder, copy), encoding="utf-8") as f:
            pairs = changed_lines(whole.splitlines(), f.read().splitlines())
        if not pairs or any(whole.count(old) != 1 for old, new in pairs):
            print(f"by hand: crates/{crate}/must-fail/{name}: {pairs}")
            continue
        with open(os.path.join(root, "crates", crate, "must-fail", name), "w", encoding="utf-8") as f:
            f.write(f"file: {target}\n" + "".join(f"old: {old}\nnew: {new}\n" for old, new in pairs))
    shutil.rmtree(top)


if __name__ == "__main__":
    if sys.argv[1:] == ["names"]:
        turn_names(".")
    elif len(sys.argv) == 3 and sys.argv[1] == "edits":
        turn_edits(".", sys.argv[2])
    else:
        raise SystemExit(__doc__)
