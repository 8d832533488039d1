#!/usr/bin/env python3
"""Brings the names of this repository's definitions and lemmas to the spelling of Rattle's library.

usage: tools/respell.py [FOLDER]      once, at the top of a checkout (or for FOLDER), after the kit's own script; --dry only says what meets what

- a name in camel case, in specs/, proofs/, clauses and imports, gets snake case: refusalOf becomes refusal_of; a dash between two names of a lemma stays
- a definition, field or constructor whose words a dash joined gets underscores (DASHED), a fact upper camel case (FACTS)
- the clauses of the crate `list` that kept their λ, since a definition was called `result`, say `result` for what is returned; the definition is `result_of`
- the crate `check`, whose name a library has, becomes `table_check`
Names of functions, labels that Rattle makes, strings, inputs and outputs keep their spelling. Run it once: on what it made it finds nothing to do.
"""
import os
import re
import sys

DASHED = """cells-a-row is-empty mul-overflows joined-spans span-holds span-holds-none within-holds div-holds add-asks sub-asks mul-asks less-flags
empty-span empty-span-within within-refl within-trans join-left join-right join-least join-widen within-empty from-to least-to-greatest ends-int
left-held right-held interval-ops record-with put-by list-ops by-sides if-any variable-count statement-count stray-byte open-comment outside-int
outside-misfit early-end variable-again label-again no-storage no-place-variable no-place-statement no-place-label at-word variables-there
statements-there variables-rest statements-rest line-is no-blank no-comment if-true if-false""".split()
FACTS = {"Holds-results": "HoldsResults", "Asks-overflow": "AsksOverflow", "Flags-truth": "FlagsTruth", "Holds-each": "HoldsEach", "Least-over": "LeastOver",
         "Runs-alike": "RunsAlike", "Exact-overflow": "ExactOverflow", "Exact-flags": "ExactFlags"}
NAME = re.compile(r"[^\s(){}.;,@\"«»\[\]\\λ]+")
CAMEL = re.compile(r"[a-z][a-z0-9_']*[A-Z]")


def snake(part):
    return re.sub(r"(?<=[a-z0-9])[A-Z]", lambda m: "_" + m[0].lower(), part)


def respelled(name):
    if name in FACTS:
        return FACTS[name]
    if name in DASHED:
        return name.replace("-", "_")
    if not re.fullmatch(r"[\w'-]+", name):
        return name
    parts = [snake(p) if re.fullmatch(r"[a-z][A-Za-z0-9_']*", p) and CAMEL.match(p) else p for p in name.split("-")]
    return "-".join(parts)


def turned(text):
    return NAME.sub(lambda m: respelled(m[0]), text)


def antt(text, path):
    if "/crates/list/" in path:
        text = re.sub(r"(?m)^(?!--)(.*)$", lambda m: re.sub(r"(?<![\w.'-])result(?![\w'-])", "result_of", m[0]), text)
    return turned(text)


CODE = re.compile(r'"(?:[^"\\]|\\.)*"|//[^\n]*|\bghost use [^;]*;|\b(?:requires|ensures|ghost)\b[^{};=()]*(?:: |= )?\{')


def clause_end(text, start):
    depth = 1
    i = start
    while depth:
        depth += {"{": 1, "}": -1}.get(text[i], 0)
        i += 1
    return i


def rust(text, path):
    out, at = [], 0
    while True:
        m = CODE.search(text, at)
        if not m:
            out.append(text[at:])
            return "".join(out)
        out.append(text[at:m.start()])
        if m[0][0] in '"/':
            out.append(m[0])
            at = m.end()
        elif m[0].startswith("ghost use"):
            piece = m[0]
            if "/crates/list/" in path:
                piece = re.sub(r"(?<![\w.'-])result(?![\w'-])", "result_of", piece)
            out.append(turned(piece))
            at = m.end()
        else:
            end = clause_end(text, m.end())
            piece = text[m.start():end]
            if "/crates/list/" in path and "λ r." in piece:
                piece = re.sub(r"(?<![\w.'-])result(?![\w'-])", "result_of", piece)
                piece = re.sub(r"ensures\* \{ λ r\. ⌜ (.*) ⌝ \}", lambda k: "ensures { " + re.sub(r"(?<![\w'-])r(?![\w'-])", "result", k[1]) + " }", piece)
            out.append(turned(piece))
            at = end


def page(text):
    return re.sub(r"`[^`\n]+`", lambda m: turned(m[0]), text)


def main(argv):
    dry = "--dry" in argv
    argv = [a for a in argv if a != "--dry"]
    root = os.path.abspath(argv[0] if argv else ".")
    met = 0
    for folder, dirs, files in os.walk(root):
        dirs[:] = sorted(d for d in dirs if d not in (".git", "out", "target", "tools"))
        for f in sorted(files):
            path = os.path.join(folder, f)
            with open(path, encoding="utf-8") as it:
                text = it.read()
            if f.endswith(".antt"):
                new = antt(text, path)
            elif f.endswith(".rt"):
                new = rust(text, path)
            elif f.endswith(".md") and os.path.basename(f) != "PORT.md":
                new = page(text)
            elif f == "crates.txt":
                new = text
            else:
                continue
            if f.endswith((".antt", ".rt")) and new != text:
                old = set(NAME.findall(text))
                for n in sorted(old):
                    r = respelled(n)
                    if r != n and r in old:
                        met += 1
                        print(f"meets: {os.path.relpath(path, root)}: {n} becomes {r}, which stands there")
            new = re.sub(r"\bRattle\.check\b", "Rattle.table_check", new) if f.endswith((".antt", ".rt", ".md")) else new
            if f.endswith(".rt"):
                new = re.sub(r"\buse check::", "use table_check::", new)
            if f == "crates.txt":
                new = re.sub(r"(?<![\w])check(?![\w])", "table_check", new)
            if new != text and not dry:
                with open(path, "w", encoding="utf-8") as it:
                    it.write(new)
    at, to = os.path.join(root, "crates", "check"), os.path.join(root, "crates", "table_check")
    if os.path.isdir(at) and not dry:
        os.rename(at, to)
    print(f"respell: {met} names meet another")


if __name__ == "__main__":
    main(sys.argv[1:])
