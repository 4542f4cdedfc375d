"""Each crate that the sources, the specifications or the proofs of another name stands in its row of crates.txt.

`rt` says so too, but only behind minutes of proofs."""
import re
import sys
from pathlib import Path

TOP = Path(__file__).resolve().parent.parent
# `use Rattle.frame_cut.specs..` of clauses, definitions and proofs; `use frame_cut::..` and `frame_cut::trace_length(..)` of code
NAMED = re.compile(r"\bRattle\.([a-z0-9_]+)\.|(?<![\w:.])([a-z0-9_]+)::")
TEXTS = re.compile(r"b?'(?:[^'\\\n]|\\.)'|//.*|--.*|b?\"(?:[^\"\\]|\\.)*\"")


def rows() -> dict[str, set[str]]:
    """The crates of crates.txt, each with those that its row names."""
    found = {}
    for line in (TOP / "crates.txt").read_text(encoding="utf-8").splitlines():
        crate, colon, below = line.partition("#")[0].partition(":")
        if colon:
            found[crate.strip()] = set(below.split())
    return found


def named_by(crate: str) -> set[str]:
    """What the crate's files name."""
    folder = TOP / "crates" / crate
    files = [it for part in ("src", "specs", "proofs") for it in folder.glob(f"{part}/**/*") if it.suffix in (".rt", ".antt")]
    return {word for it in files for pair in NAMED.findall(TEXTS.sub("", it.read_text(encoding="utf-8"))) for word in pair if word}


def main() -> int:
    listed = rows()
    wrong = [
        f"crates.txt: {crate} names {other}, which its row lacks"
        for crate in sorted(listed)
        for other in sorted((named_by(crate) & listed.keys()) - listed[crate] - {crate})
    ]
    wrong += [f"crates.txt: no row for {it.parent.name}" for it in sorted(TOP.glob("crates/*/src")) if it.parent.name not in listed]
    print("\n".join([*wrong, f"crates: {len(listed)} rows, {len(wrong)} names that a row lacks"]))
    return 1 if wrong or len(listed) < 60 else 0


if __name__ == "__main__":
    sys.exit(main())
