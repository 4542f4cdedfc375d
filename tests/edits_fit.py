"""Each wrong body, of the gate and of more-edits/, fits the sources: each of its old texts stands once in its file.

The gate tries those of crates/*/must-fail, at its end; those of more-edits/ are tried by tools/more-edits. Here a change of the code that leaves one behind is told
in a second."""
import sys
from pathlib import Path

TOP = Path(__file__).resolve().parent.parent


def misfits(edit: Path, crate: Path) -> str:
    """Says why the edit does not fit its crate, or nothing."""
    path, old, pairs, texts = "", "", 0, {}
    for line in edit.read_text(encoding="utf-8").split("\n"):
        word, _, rest = line.partition(": ")
        if word == "file":
            path = rest.strip()
            if not (crate / path).is_file():
                return f"there is no file {path}"
            texts.setdefault(path, (crate / path).read_text(encoding="utf-8"))
        elif word == "old":
            old = rest
        elif line.startswith("new:"):
            if not path or not old:
                return "new: without file: and old: before it"
            if texts[path].count(old) != 1:
                return f"its old text stands {texts[path].count(old)} times in {path}"
            texts[path] = texts[path].replace(old, line[len("new:") :].removeprefix(" "))
            old, pairs = "", pairs + 1
    return "" if pairs else "it has no old: and new:"


def main() -> int:
    edits = [(it, it.parent.parent) for it in sorted(TOP.glob("crates/*/must-fail/*"))]
    in_gate = len(edits)
    edits += [(it, TOP / "crates" / it.parent.name) for it in sorted(TOP.glob("more-edits/*/*"))]
    wrong = [f"{it.relative_to(TOP)}: {why}" for it, crate in edits if (why := misfits(it, crate) if it.suffix == ".edit" else "its name does not end in .edit")]
    print("\n".join([*wrong, f"edits: {in_gate} in the gate, {len(edits) - in_gate} beside it, {len(wrong)} that do not fit"]))
    return 1 if wrong or in_gate == len(edits) else 0


if __name__ == "__main__":
    sys.exit(main())
