#!/usr/bin/env python3
"""Checks docs/READING-THE-PROMISE.md: it lists every page of specs that the contracts below name, directly or through `use` lines, and no
other, each page after those that it uses; it names each type that comes from code where it first comes; and its counts are right. Nothing
is proved here."""
import re
import subprocess
import sys
from pathlib import Path

root = Path(__file__).resolve().parent.parent

# the promised calls, and the traits whose ghost members their contracts speak of
CALLS = [
    ("sitebook", "pub fn read_site"),
    ("rulebook", "pub fn read_rule"),
    ("wishbook", "pub fn read_wish"),
    ("model", "pub trait SiteModel"),
    ("model", "pub trait GroundModel"),
    ("pile", "pub trait Pile"),
    ("pile", "pub fn truthful_start"),
    ("weighing", "pub trait Weighing"),
    ("promise", "pub fn write_pile"),
    ("promise", "pub fn plan_and_walk"),
]
# what these stand for in the programs
MEANT = [
    ("pile", "pub fn lay_all"),
    ("pile", "> Pile for Footing<"),
    ("pile", "> Pile for Layer<"),
    ("layer", "> SiteModel for Layer<"),
    ("ground", "impl SiteModel for GroundBook"),
    ("rulebook", "impl SiteModel for RuleBook"),
    ("sitebook", "impl SiteModel for SiteBook"),
    ("outbook", "impl SiteModel for OriginBook"),
    ("weighing", "impl Weighing for Mean"),
    ("weighing", "impl Weighing for Worst"),
]

USE = re.compile(r"use Rattle\.([\w.]+?)(?:\.\{([^}]*)\}| as \w+)?;?[ \t]*$", re.M)


def uses(text):
    """the modules that a text uses, each with the names that it takes, as they are called there"""
    for m in USE.finditer(text):
        yield m[1], [n.split(" as ")[-1].strip() for n in (m[2] or "").split(",")]


pages = {}
for f in subprocess.check_output(["git", "ls-files", "crates/*/specs/*.antt"], cwd=root, text=True).split():
    if not f.endswith("/Lib.antt"):
        pages[f.removeprefix("crates/").removesuffix(".antt").replace("/", ".")] = root / f

used = {p: [m for m, _ in uses(f.read_text()) if m in pages] for p, f in pages.items()}


def named(crate, start):
    """the pages that a contract names, or the ghost members of a trait or an impl"""
    texts = [f.read_text() for f in sorted((root / "crates" / crate / "src").rglob("*.rt"))]
    text = next(t for t in texts if re.search(re.escape(start) + r"\b", t))
    at = text.index(start)
    if "fn " in start:
        said = text[at : text.index("\n{\n", at)]
    else:
        ghosts = r"ghost \w+: .*?\};|ghost (?:meaning|piling) = .*?\};|ensures .*?[;\n]"
        said = "\n".join(re.findall(ghosts, text[at : text.index("\n}\n", at)], re.S))
    words = set(re.findall(r"[^\s(){};,.\[\]]+", said))
    return [m for m, names in uses(text) if m in pages and words & set(names)]


def closed(todo):
    seen = set()
    while todo:
        p = todo.pop()
        if p not in seen:
            seen.add(p)
            todo += used[p]
    return seen


promised = closed([p for c in CALLS for p in named(*c)])
meant = closed([p for c in MEANT for p in named(*c)]) - promised

doc = (root / "docs/READING-THE-PROMISE.md").read_text()
listed = [p.replace("/", ".") for p in re.findall(r"^\d+\. `(\w+/specs/\w+)`", doc, re.M)]
wrong = []
if len(set(listed)) < len(listed):
    wrong.append("a page is listed twice")
for kind, there, wanted in [("first", listed[: len(promised)], promised), ("second", listed[len(promised) :], meant)]:
    wrong += [f"missing in the {kind} list: {p}" for p in sorted(wanted - set(there))]
    wrong += [f"not in the {kind} list by its uses: {p}" for p in there if p not in wanted]
for i, p in enumerate(listed):
    wrong += [f"{p} uses {q}, which is not listed before it" for q in used.get(p, []) if q not in listed[:i]]
for count in (f"{len(promised)} of {len(pages)} pages", f"{len(meant)} more"):
    if count not in doc:
        wrong.append(f"the page does not say: {count}")
lines = dict(re.findall(r"^\d+\. `(\w+/specs/\w+)`: (.*)", doc, re.M))
known = set()
for p in (p for p in listed if p in pages):
    types = {m.removesuffix(".TheVariants") for m, _ in uses(pages[p].read_text()) if ".declared." in m and not m.startswith("std.")}
    said = set(re.findall(r"`(\w+)`", lines[p.replace(".", "/")].partition("From code: ")[2].partition(" of crate")[0]))
    new = {m.split(".")[-1] for m in types - known}
    if new != said:
        wrong.append(f"{p}: the types from code are {sorted(new)}")
    known |= types
wrong += [f"there is no file {f}" for f in re.findall(r"`((?:crates|tools)/[a-z]+[\w/.-]*\.\w+)`", doc) if not (root / f).exists()]
print("\n".join(wrong) if wrong else f"check-reading: {len(listed)} pages, in order")
sys.exit(bool(wrong))
