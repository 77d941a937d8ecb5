#!/usr/bin/env python3
"""Which public functions are inner, at the commits that are named.

A function is inner if other crates of this repository call it, C does not, and neither README.md nor docs/ (docs/PORT.md and
docs/DESIGN-PASS.md aside) names it in a span of code. Crates that hold only programs, exports for C or tests do not count as
other crates. `tools/inner.py COMMIT..` prints those that are inner at each of the commits, crate by crate, and what the
others are: named, or called by no other crate.
"""
import re
import subprocess
import sys

ASIDE = ("docs/PORT.md", "docs/DESIGN-PASS.md")
NO_CALLERS = {
    "bitwise_c", "decode_cases", "follow_cases", "frame_cases", "hadamard_cases", "line_cases", "link", "linkline",
    "list_cases", "mark_cases", "report", "round_trip", "side_follow",
}


def git(*words):
    return subprocess.run(["git", *words], check=True, capture_output=True, text=True).stdout


def kinds(commit):
    """The public functions of a commit: (crate, name) to inner, named or uncalled."""
    named, sources = set(), {}
    for path in git("ls-tree", "-r", "--name-only", commit).split("\n"):
        if path.endswith(".md") and (path == "README.md" or path.startswith("docs/")) and path not in ASIDE:
            for span in re.findall(r"`([^`]*)`", git("show", f"{commit}:{path}")):
                named.update(re.findall(r"[A-Za-z_][A-Za-z0-9_]*", span))
        found = re.match(r"crates/(\w+)/src/\w+\.rt$", path)
        if found:
            sources[found[1]] = sources.get(found[1], "") + git("show", f"{commit}:{path}")
    out = {}
    for crate, text in sources.items():
        for name in re.findall(r"^\s*pub (?:const )?fn ([a-z0-9_]+)", text, re.M):
            callers = [
                other for other, code in sources.items()
                if other != crate and other not in NO_CALLERS and re.search(rf"\b{name}\b", code)
            ]
            out[crate, name] = "named" if name in named else "inner" if callers else "uncalled"
    return out


def main(commits):
    found = [kinds(commit) for commit in commits]
    kept = {}
    for key, kind in found[-1].items():
        at = {seen.get(key, "named") for seen in found}
        kept[key] = at.pop() if len(at) == 1 else "named"
    for kind in ("inner", "uncalled", "named"):
        lines = {}
        for (crate, name), one in kept.items():
            if one == kind:
                lines.setdefault(crate, []).append(name)
        print(kind, sum(map(len, lines.values())))
        for crate, names in lines.items():
            print("   ", crate + ":", " ".join(names))


if __name__ == "__main__":
    main(sys.argv[1:] or ["HEAD"])
