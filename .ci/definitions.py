#!/usr/bin/env python3
"""Checks docs/definitions.md against the contracts: prints what differs, and exits 1 where something does.

A public call is a `fn` that a crate's root hands out: a function, a method of a public type, or a function of a public trait. Of a program
it is what its root takes from its own modules. Each definition of specs/ that a clause of such a call names must have one row in the
page, under the heading of its crate and with its file, and each row must name a public definition that is there. `--list` prints the
definitions that clauses name, with the calls; `--draft` prints a row for each that has none, in the words of its file.
"""
import os
import re
import sys

TOP = os.path.dirname(os.path.dirname(os.path.abspath(__file__)))
NAME = r"[A-Za-z_][A-Za-z0-9_]*"
DEFINITION = re.compile(rf"^(?:(?:abbrev|unfoldable|opaque) )?pub (?:record |data )?({NAME})\b")


def text_of(path):
    with open(path, encoding="utf-8") as file:
        return file.read()


def crates():
    with open(f"{TOP}/crates.txt", encoding="utf-8") as lines:
        return [line.split(":")[0].split()[0] for line in lines if line.strip() and not line.startswith("#")]


def definitions(crate):
    """Returns the public definitions of a crate, as pairs of a file of specs/ and a name."""
    found = []
    folder = f"{TOP}/crates/{crate}/specs"
    for file in sorted(os.listdir(folder)) if os.path.isdir(folder) else []:
        if file.endswith(".antt"):
            for line in text_of(f"{folder}/{file}").splitlines():
                match = DEFINITION.match(line)
                if match and match[1] != "mod":
                    found.append((file[:-5], match[1]))
    return found


def listed_names(words):
    """Returns the names of a list such as `{A, B as C}`, or of one name, each with the name that it has here."""
    for word in re.split(r"[,\s]*[,{}][,\s]*", words):
        parts = word.split()
        if parts:
            yield parts[0], parts[-1]


def exports(crate):
    """Returns the names that the crate's root hands out."""
    folder = f"{TOP}/crates/{crate}/src"
    if os.path.exists(f"{folder}/main.rt"):
        text = text_of(f"{folder}/main.rt")
        modules = set(re.findall(rf"^mod ({NAME});", text, re.M))
        uses = re.findall(rf"^use ({NAME})::(\{{[^}}]*\}}|{NAME});", text, re.M)
        return {name for module, names in uses if module in modules for name, _ in listed_names(names)}
    text = text_of(f"{folder}/lib.rt")
    uses = re.findall(rf"^pub use {NAME}::(\{{[^}}]*\}}|{NAME});", text, re.M)
    own = re.findall(rf"^pub (?:fn|struct|enum|trait) ({NAME})", text, re.M)
    return set(own) | {name for names in uses for name, _ in listed_names(names)}


def imports(text):
    """Returns where each name that clauses of a file may use comes from: a crate, a file of specs/ and a name, or None for all names of a file."""
    found = {}
    for crate, file, names in re.findall(rf"ghost use Rattle\.({NAME})\.specs\.({NAME})\.\{{([^}}]*)\}}", text):
        found.update({here: (crate, file, name) for name, here in listed_names(names)})
    for crate, file, here in re.findall(rf"ghost use Rattle\.({NAME})\.specs\.({NAME}) as ({NAME});", text):
        found[here] = (crate, file, None)
    return found


def calls(text, public):
    """Yields the name of each public call of a file and the text of its clauses."""
    owner, of_trait, clauses, name = None, False, None, None
    for line in text.splitlines():
        block = re.match(rf"(impl(?:<.*?>)? .* for |impl(?:<.*?>)? |pub trait )({NAME})", line)
        if block:
            owner, of_trait = block[2], "for" in block[1] or "trait" in block[1]
        elif line == "}":
            owner, clauses = None, None
        start = re.match(rf"( *)(pub )?(?:const )?fn ({NAME})", line)
        if start:
            inside = bool(start[1])
            seen = owner in public and (start[2] or of_trait) if inside else start[2] and start[3] in public
            name = f"{owner}::{start[3]}" if inside else start[3]
            clauses = [] if seen else None
        if clauses is None:
            continue
        begins_body = line.endswith("{") and not re.match(r" *(ensures|requires)", line)
        if not start and not begins_body:
            clauses.append(line.split("//")[0])
        if begins_body or line.strip() == "{}" or line.endswith(";"):
            yield name, "\n".join(clauses)
            clauses = None


def cited(all_definitions):
    """Returns the definitions that clauses of public calls name, each with the calls."""
    found = {}
    for crate in all_definitions:
        public = exports(crate)
        for at, _, files in os.walk(f"{TOP}/crates/{crate}/src"):
            for file in sorted(it for it in files if it.endswith(".rt")):
                text = text_of(os.path.join(at, file))
                known = imports(text)
                for call, clauses in calls(text, public):
                    for word, behind in re.findall(rf"(?<![\w.])({NAME})(?:\.({NAME}))?", clauses):
                        where = known.get(word)
                        key = where and (where[0], where[1], where[2] or behind)
                        if key and key[0] in all_definitions and key[1:] in all_definitions[key[0]]:
                            found.setdefault(key, set()).add(f"{crate}::{call}")
    return found


def draft(crate, file, name):
    """Returns a row for a definition, in the words of the legend at the head of its file."""
    for line in text_of(f"{TOP}/crates/{crate}/specs/{file}.antt").splitlines():
        legend = re.match(r"--    ? +(\S.*?)  +(\S.*)", line)
        if legend and re.search(rf"\b{name}\b", legend[1]):
            return f"{crate}: | `{legend[1] if legend[1].startswith(name) and ',' not in legend[1] else name}` | {legend[2]} | `{file}` |"
    return f"{crate}: | `{name}` | .. | `{file}` |"


def page_rows():
    """Returns the crate, the file of specs/ and the name of each row of the page."""
    crate, rows = None, []
    for line in text_of(f"{TOP}/docs/definitions.md").splitlines():
        heading = re.match(rf"## `({NAME})`", line)
        row = re.match(rf"\| `({NAME})[^`]*` \|.*\| `({NAME})` \|$", line)
        if heading:
            crate = heading[1]
        elif row:
            rows.append((crate, row[2], row[1]))
    return rows


def main():
    all_definitions = {crate: definitions(crate) for crate in crates()}
    found = cited(all_definitions)
    if sys.argv[1:] == ["--list"]:
        for crate, file, name in sorted(found, key=lambda it: (list(all_definitions).index(it[0]), it[1], it[2])):
            print(crate, file, name, " ".join(sorted(found[crate, file, name])))
        return 0
    if sys.argv[1:] == ["--draft"]:
        for it in sorted(set(found) - set(page_rows())):
            print(draft(*it))
        return 0
    there = {(crate, *it) for crate, found_there in all_definitions.items() for it in found_there}
    rows = page_rows()
    faults = [f"no row for {' '.join(it)}" for it in sorted(set(found) - set(rows))]
    faults += [f"no such definition: {' '.join(map(str, it))}" for it in sorted(set(rows) - there, key=str)]
    faults += [f"two rows for {' '.join(it)}" for it in sorted({it for it in rows if rows.count(it) > 1})]
    for fault in faults:
        print(f"docs/definitions.md: {fault}")
    return 1 if faults else 0


if __name__ == "__main__":
    sys.exit(main())
