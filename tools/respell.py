#!/usr/bin/env python3
"""Respells this repository's own definitions and lemmas: snake case for functions, fields, constructors and lemmas, camel case for facts.

usage: python3 tools/respell.py [FOLDER]      the repository, else the folder that this script's own lies in

It was run once, directly behind port.py, when the repository was brought to the Rattle that it is written in now. What it does:
  putByte         -> put_byte
  status-kept     -> status_kept; a lemma that would have a definition's name then gets `_lem` behind it
  length-putByte  -> length-put_byte: a dash stays where it joins nothing but names of definitions
  isTdr           -> IsTdr, since it is a fact
  copy-run-spec   -> copy_run_spec, a function's proof
Names that come from the kit, names that Rattle makes, functions of src/, strings and file names stay. Comments and documents follow where they
name a definition. Run a second time it changes nothing.
"""
import collections
import os
import re
import sys

ROOT = sys.argv[1] if len(sys.argv) > 1 else os.path.dirname(os.path.dirname(os.path.realpath(__file__)))
CRATES = os.path.join(ROOT, "crates")
TOKEN = re.compile(r"[^\s(){}\[\],;.:\"`|]+")
HEAD = re.compile(r"^(?:(?:unfoldable|abbrev|pub|data|record|ruleset)\s+)*([^\s(){}\[\],;.:]+)(.*)$")
FACTS = {"anyBlock": "AnyBlock", "isTdr": "IsTdr"}
# A variable has the name that this lemma would get, where it is used.
SHADOWED = {"so-far": "so_far_lem"}
# Words of the kit that stand in the names of lemmas.
KIT = {"length", "take", "drop", "append", "map", "filter", "set", "sets", "sum", "replicate", "reverse", "min", "max", "add", "sub", "mul", "div",
       "mod", "pow", "suc", "nil", "cons", "get_or", "bit", "cond"}


def files(ending):
    for folder, below, names in os.walk(CRATES):
        below[:] = sorted(d for d in below if d != "out")
        for name in sorted(names):
            if name.endswith(ending):
                yield os.path.join(folder, name)


def read(path):
    with open(path, encoding="utf-8") as f:
        return f.read()


def snake(name):
    name = name.replace("getD", "get_or")
    name = re.sub(r"([a-z])(\d+[A-Z])", r"\1_\2", name)
    name = re.sub(r"([a-z0-9])([A-Z])(?=[A-Z][a-z])", lambda m: m.group(1) + "_" + m.group(2).lower() + "_", name)
    name = re.sub(r"_([A-Z])(?=[a-z])", lambda m: "_" + m.group(1).lower(), name)
    return re.sub(r"([a-z0-9])([A-Z])", lambda m: m.group(1) + "_" + m.group(2).lower(), name)


def of_function(path):
    """Whether a proof file is that of a function, and not a file of lemmas."""
    parts = os.path.relpath(path, CRATES).split(os.sep)
    return parts[1] == "proofs" and len(parts) > 3


def is_code(line):
    return not line.startswith(("use ", "pub use ", "--", "mod ", "pub mod ", "unfolding", " "))


def declared(path):
    """The names that a file declares: at its top, and as fields and constructors."""
    tops, fields = {}, set()
    for line in read(path).split("\n"):
        if is_code(line):
            m = HEAD.match(line)
            if m and (re.match(r"(unfoldable|abbrev|pub|data|record|ruleset)\s", line) or re.match(r"\s*:\s", m.group(2))):
                tops.setdefault(m.group(1), line)
        m = re.match(r"^  +(?:pub )?([^\s(){}\[\],;.:]+) :", line)
        if m:
            fields.add(m.group(1))
    return tops, fields


def bound(path):
    """The names that a file binds with let, or gives to what it imports."""
    text = read(path)
    return set(re.findall(r"\blet ([a-z][^\s(){}\[\],;.:]*) [:=]", text)) | set(re.findall(r"^use .* as ([a-z][^\s(){}\[\],;.:]*)$", text, re.M))


def plan():
    tops, fields, own = {}, set(), collections.defaultdict(set)
    for path in files(".antt"):
        t, f = declared(path)
        if of_function(path):
            own[path] = {n for n, line in t.items() if not re.search(r"\b(tie|goal|given)\.", line)}
        else:
            tops.update(t)
            fields |= f
        own[path] |= bound(path)
    defined = {snake(n) for n in list(tops) + list(fields) if "-" not in n} | KIT
    to = {**FACTS, **SHADOWED}

    def plain(n):
        new = snake(n)
        if "-" in new:
            parts = new.split("-")
            joins = all(p in KIT or p[:1].isupper() or "_" in p and p in defined for p in parts)
            if new.replace("-", "_") in defined or not joins:
                new = new.replace("-", "_")
        return new

    for n in list(tops) + list(fields):
        if n not in to and re.match(r"[a-z]", n):
            to[n] = plain(n)
    # A lemma that would have a definition's name, or another lemma's.
    by = collections.defaultdict(list)
    for n, new in to.items():
        by[new].append(n)
    for new, olds in by.items():
        if len(olds) > 1:
            olds.sort(key=lambda n: ("-" in n, not re.search("[A-Z]", n)))
            for n in olds[1:]:
                to[n] = new + "_lem"
    taken = collections.Counter(to.values())
    clash = [(n, v) for n, v in to.items() if taken[v] > 1]
    if clash:
        print("fall together:", clash)
    to = {n: v for n, v in to.items() if n != v}
    local = {p: {n: plain(n) for n in s if re.match("[a-z]", n) and plain(n) != n and n not in to} for p, s in own.items()}
    return to, fields, local, {plain(n) for n in list(tops) + list(fields)} | set(to.values())


def foreign(text):
    """The names that a file takes from the kit or from what Rattle makes, and the short names of such modules."""
    names, modules, mine = set(), set(), set()
    for m in re.finditer(r"^(?:ghost )?use ([^\s;{]+?)(?:\.\{([^}]*)\}|(?: as (\S+?))?);?$", text, re.M):
        path, taken, alias = m.groups()
        own = re.match(r"Rattle\.(\w+)\.(specs|proofs)\.[A-Z]", path) and os.path.isdir(os.path.join(CRATES, path.split(".")[1]))
        if own and ".proofs." in path and re.search(r"\.(Goals|Given|Tie|Lts|Kinds|Statement)$", path):
            own = False
        if own and alias:
            mine.add(alias)
        if not own:
            if taken:
                for item in taken.split(","):
                    names.add(item.split(" as ")[-1].strip())
            else:
                modules.add(alias or path.split(".")[-1])
    return names, modules, mine


def respelled(code, to, fields, taken):
    names, modules, mine = taken

    def one(m):
        word, at = m.group(), m.start()
        if word in names:
            return word
        if word not in to:
            # a name of a proof's own, as that of a variable
            local = re.fullmatch(r"[a-z]+[A-Z]\w*'?", word) and not (at and code[at - 1] == ".")
            return snake(word) if local else word
        if at and code[at - 1] == ".":
            before = re.search(r"([\w'-]+)\.$", code[:at])
            if before and before.group(1) in modules:
                return word
            path = re.search(r"[A-Z][\w]*\.$", code[:at])
            if word not in fields and not path and not (before and before.group(1) in mine):
                return word
        return to[word]
    return TOKEN.sub(one, code)


def in_words(text, to, known):
    """A comment or a document: names in backticks, and names that no word of prose looks like."""
    def now(m):
        word = m.group()
        new = snake(word).replace("-", "_")
        return to.get(word) or (new if new in known and re.match("[a-z]", word) and re.search("[A-Z-]", word) else word)

    text = re.sub(r"`([^`\n]*)`", lambda m: "`" + TOKEN.sub(now, m.group(1)) + "`", text)
    return re.sub(r"(?<![`\w.'-])[a-z][a-z0-9]*[A-Z]\w*(?![\w'-])", now, text)


def turn_antt(path, to, fields, local, known):
    text = read(path)
    taken = foreign(text)
    mine = dict(to)
    mine.update(local.get(path, {}))
    if of_function(path):
        function = os.path.basename(os.path.dirname(path))
        for n in declared(path)[0]:
            if n.replace("-", "_") == function + "_spec":
                mine[n] = function + "_spec"
            elif re.search(r"^%s : (tie|goal|given)\." % re.escape(n), text, re.M):
                mine.pop(n, None)
    lines = []
    for line in text.split("\n"):
        m = re.match(r"^(.*?)((?:^|(?<=\s))--.*)?$", line)
        code, words = m.group(1), m.group(2) or ""
        if not re.match(r"^use [^{]*\.proofs\.[^{]*\.(Goals|Given|Tie|Lts|Kinds|Statement)\b", code):
            code = respelled(code, mine, fields, taken)
        lines.append(code + in_words(words, mine, known))
    return text, "\n".join(lines)


def turn_rt(path, to, fields, known):
    text = read(path)
    taken = foreign(text)
    lines, depth = [], 0
    for line in text.split("\n"):
        m = re.match(r"^(.*?)((?:^|(?<=\s))//.*)?$", line)
        code, words = m.group(1), m.group(2) or ""
        begins = re.match(r"^(ghost use|\s*(?:requires|ensures|ghost|invariant)\b)", code)
        if begins or depth > 0:
            depth += code.count("{") - code.count("}")
            code = respelled(code, to, fields, taken)
            if depth < 0:
                depth = 0
        lines.append(code + in_words(words, to, known))
    return text, "\n".join(lines)


def main():
    to, fields, local, known = plan()
    changed = 0
    for path in list(files(".antt")) + list(files(".rt")):
        old, new = turn_antt(path, to, fields, local, known) if path.endswith(".antt") else turn_rt(path, to, fields, known)
        if old != new:
            changed += 1
            with open(path, "w", encoding="utf-8") as f:
                f.write(new)
    for folder in ("", "docs", "docs/landings", "tests/host", "tests/model", "tests/replay"):
        at = os.path.join(ROOT, folder)
        for name in sorted(os.listdir(at)) if os.path.isdir(at) else []:
            path = os.path.join(at, name)
            if name.endswith(".md") and not name.startswith("PORT"):
                old = read(path)
                new = in_words(old, to, known)
                if old != new:
                    changed += 1
                    with open(path, "w", encoding="utf-8") as f:
                        f.write(new)
    if os.environ.get("RESPELL_TABLE"):
        with open(os.environ["RESPELL_TABLE"], "w", encoding="utf-8") as f:
            for n, v in sorted(to.items()):
                f.write(f"{n}\t{v}\n")
    print(f"respell: {len(to)} names, {changed} files")


main()
