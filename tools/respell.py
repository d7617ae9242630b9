#!/usr/bin/env python3
"""Brings the repository's own names to the spelling of today's Rattle. Run once, at the top, right after the kit's port.py.

- Words in snake case: `joinedBelow` is `joined_below`. Names of source code keep their spelling.
- Fields of records and constructors in snake case too: `rest-low` is `rest_low`. Lemmas keep the dashes that join words.
- A lemma that would fall together with the word that it is about gets `_lem`; a field that would has another name (FIELDS).
- Lent values in contracts: `before x` is `x.now` of a `&` and `x.old` of a `&mut`, `after x` is `x.new`; the names for them go,
  and so do `arraysBefore` and `arraysAfter`, which were only these over four arrays.
"""
import glob
import os
import re

KEPT = {"dB"}
# lemmas and fields that would fall together with a definition, by the files of their crates
LEMMAS = {
    "noises": {"entries_with": "entries_with_lem"},
    "starts": {"first_above": "first_above_lem", "above_at": "above_at_lem"},
    "loadings": {"first_above": "first_above_lem", "above_at": "above_at_lem"},
    "loader": {"power_at": "power_stands"},
}
# fields that would fall together with a definition
FIELDS = {
    "limit-at": "limits_agree",
    "cost-at": "costs_agree",
    "doublings-at": "doublings_agree",
    "rest-at": "rests_agree",
    "power-of": "power_is",
    "has-noise": "noise_known",
    "bits-at": "bits_stand",
}
WORD = re.compile(r"[^\W\d][\w'-]*")


def snake(part):
    return re.sub(r"(?<=[a-z0-9])([A-Z])|(?<=[A-Z])([A-Z])(?=[a-z])", lambda m: "_" + (m.group(1) or m.group(2)), part).lower()


def word(t):
    if t in KEPT:
        return t
    return "-".join(snake(p) if p[:1].islower() else p for p in t.split("-"))


def respell(text):
    return WORD.sub(lambda m: word(m.group(0)), text)


def lemmas(crate, path, text):
    """Lemmas first: their names stand in proofs/, but for the fields of a record of loader."""
    if "/src/" in path:
        return text
    for old, new in LEMMAS.get(crate, {}).items():
        # a proof's folder and what is made of a function keep the function's name
        text = re.sub(r"(?<![\w'.-])" + re.escape(old) + r"(?![\w'-])(?!\.(?:Statement|Tie|ensures))", new, text)
    return text


def fields(files):
    """Fields of records, and constructors, that are spelled with a dash."""
    found = {}
    for path in files:
        if not path.endswith(".antt"):
            continue
        inside = None
        with open(path, encoding="utf-8") as f:
            lines = f.read().split("\n")
        for line in lines:
            if not line.strip() or line.strip().startswith("--"):
                continue
            indent = len(line) - len(line.lstrip())
            if inside is not None and indent <= inside:
                inside = None
            if re.match(r"\s*((unfoldable|abbrev|pub)\s+)*(record|data)\s", line):
                inside = indent
                continue
            m = re.match(r"\s*(pub\s+)?([^\W\d][\w'-]*) :", line)
            if m and inside is not None and "-" in m.group(2):
                found[m.group(2)] = FIELDS.get(m.group(2), m.group(2).replace("-", "_"))
    return found


def lent(text):
    """Contracts of a source file: a value lent by a function is named by that function's signature."""
    out, kinds = [], {}
    signature = ""
    for line in text.split("\n"):
        if re.match(r"\s*(pub(\(crate\))? )?(unsafe )?(extern \"C\" )?fn ", line):
            signature, kinds = line, {}
        elif signature:
            signature += " " + line.strip()
        if signature and not re.match(r"\s*//", line):
            for name, ref in re.findall(r"\b(\w+): (&mut |&)", signature):
                kinds[name] = "old" if "mut" in ref else "now"
            if re.match(r"\s*(requires|ensures)\b|\s{8,}", line) or "{ " in line:
                if line.strip() == "{":
                    signature = ""

                def before(m):
                    return f"{m.group(1)}.{kinds[m.group(1)]}" if m.group(1) in kinds else m.group(0)

                line = re.sub(r"\(arraysBefore (\w+) (\w+) (\w+) (\w+)\)", r"(arrays (before \1) (before \2) (before \3) (before \4))", line)
                line = re.sub(r"\(arraysAfter (\w+) (\w+) (\w+) (\w+)\)", r"(arrays (after \1) (after \2) (after \3) (after \4))", line)
                line = re.sub(r"\(before (\w+)\)", before, line)
                line = re.sub(r"\bbefore (\w+)(?=[ )])", before, line)
                line = re.sub(r"\(after (\w+)\)", r"\1.new", line)
                line = re.sub(r"\bafter (\w+) (≡)", r"\1.new \2", line)
        if line == "{" or line == "    {":
            signature = ""
        out.append(line)
    text = "\n".join(out)
    if not re.search(r"Arrays\.\{[^}]*\barrays\b", text):
        text = text.replace("Arrays.{arraysBefore", "Arrays.{arrays")
    text = re.sub(r",? ?\barrays(Before|After)\b(?=[,}])", "", text)
    return re.sub(r"ghost use Rattle\.lists\.specs\.Lent\.\{[^}]*\};\n", "", text)


def main():
    os.remove("crates/lists/specs/Lent.antt")
    files = sorted(p for k in ("*.antt", "*.rt", "*.edit") for p in glob.glob(f"crates/**/{k}", recursive=True) if "/out/" not in p)
    dashed = fields(files)
    for path in files:
        with open(path, encoding="utf-8") as f:
            text = old = f.read()
        # (a path to a call, as c.power-of.result, is not a field's)
        text = WORD.sub(lambda m: m.group(0) if re.match(r"\.(ensures|result)", text[m.end() :]) else dashed.get(m.group(0), m.group(0)), text)
        crate = path.split("/")[1]
        if path == "crates/lists/specs/Lib.antt":
            text = text.replace("pub mod Lent\n", "")
        if path == "crates/line/specs/Arrays.antt":
            text = re.sub(r"-- lent arrays as they are.*?(?=-- what they hold)", "", text, flags=re.S)
            text = re.sub(r"use (Rattle\.std\.specs\.Borrow\.\{Bor\}|denote\.Triple\.Both\.\{Both\}|Rattle\.lists\.specs\.Lent\.\{before, after\})\n", "", text)
        if path.endswith(".rt"):
            text = lent(text)
        if path.endswith(".antt"):
            text = lemmas(crate, path, text)
        text = respell(text)
        if text != old:
            with open(path, "w", encoding="utf-8") as f:
                f.write(text)


main()
