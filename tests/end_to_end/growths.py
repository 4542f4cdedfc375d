"""Each growth of memory of a run is refused in turn: the program runs under a preloaded library that refuses the nth, for n = 1, 2, .. until
a run meets none. Each run ends as the definitions allow: a file refused with L16, a script refused with P03, one line answered E11
that changes nothing (every other line then answers, and the file is saved, as if that line were not there), a command line that is not
accepted for want of memory, or as with ample memory where the program can do without that growth."""

import re

from sweeps import end

NOT_SAVED = "=segywb: save failed after {} bytes\nsegywb: o.sgy: "
AS_IT_WAS = "it is as it was; save elsewhere, or repair FILE itself with --in-place"
# the ends in front of the first line of a script; the first two are those of the command line
EARLY = [
    end("words", 2, errors="=segywb: cannot read the command line"),
    end("words", 2, errors="=error: out of memory"),
    end("out", 4, errors=NOT_SAVED.format(0) + "out of memory; save elsewhere"),
    end("beside", 4, errors=NOT_SAVED.format(0) + "cannot make a file beside it (out of memory); save elsewhere"),
    end("room", 4, errors="=segywb: out of memory"),
    end("L16", 3, "=load refused L16 out of memory"),
    end("P03", 4, "=script refused P03 out of memory"),
]
# what takes no memory: not to be read, nor to be done; of several traces a delete is listed
WITHOUT = re.compile(r"(count|info|totals|sample .*|geometry.*|stat .*|fold.*|range.*|code.*|drop.*|delete .|get.*@.*|bin.*@.*|lines 9)\Z")


def may_want(line):
    """Whether this line may be answered E11: its command takes memory, or to be read it does (names, texts, numbers)."""
    return not WITHOUT.match(line)


class Growths:
    """Growths in a room, of runs with some options."""

    def __init__(self, sweeps, library, options=()):
        self.sweeps = sweeps
        self.room = sweeps.room
        self.library = library
        self.options = list(options)

    def run(self, file, script, *words, **more):
        """A run of lines, given as a list."""
        self.room.put("lines", "".join(line + "\n" for line in script))
        return self.room.run(file, *self.options, "--script", "lines", *words, **more)

    def answers_in_front(self, file, lines):
        """How many lines of answers stand in front of those of each line: behind each stands one that no line of the script is."""
        marked = self.run(file, [one for line in lines for one in (line, "=")], "--quiet").answers.decode().splitlines()
        places, at = [], 0
        for answer in marked:
            if answer == "refused S01 unknown word":
                places.append(at)
            else:
                at += 1
        assert len(places) == len(lines)
        return [0] + places[:-1]

    def whole(self, file, lines):
        """The ends of a run with ample memory, and of a save of it that wants memory; what it gives is whole.txt and whole.sgy."""
        ended = self.run(file, lines, "--out", "whole.sgy")
        self.room.put("whole.txt", ended.answers)
        ends = [
            end("journal", 3, errors=f"=segywb: {file}: cannot look for a journal beside it (out of memory)"),
            end("whole", ended.status, "whole.txt", saved="whole.sgy"),
            end("create", 4, "whole.txt", NOT_SAVED.format(0) + f"cannot make a file beside it (out of memory): {AS_IT_WAS}"),
        ]
        if self.room.has("whole.sgy"):
            told = NOT_SAVED.format(len(self.room.get("whole.sgy"))) + f"cannot put the file beside it in its place (out of memory): {AS_IT_WAS}"
            ends.append(end("rename", 4, "whole.txt", told))
        return ends

    def fewer(self, file, lines, place, at):
        """The end of a run in which one line is answered E11."""
        ended = self.run(file, lines[:place] + lines[place + 1:], "--out", f"fewer.{place}.sgy")
        told = ended.answers.splitlines(keepends=True)
        self.room.put(f"fewer.{place}.txt", b"".join(told[:at] + [b"refused E11 out of memory\n"] + told[at:]))
        return end(str(place), 1, f"fewer.{place}.txt", saved=f"fewer.{place}.sgy")

    def grow(self, file, lines, first=1):
        """Each growth of the run of these lines is refused in turn; gives back how often each line was answered E11, by its place, and how
        often the command line was refused."""
        whole = self.whole(file, lines)
        wanting = [(place, at) for place, at in enumerate(self.answers_in_front(file, lines)) if may_want(lines[place])]
        ends = EARLY + whole + [self.fewer(file, lines, place, at) for place, at in wanting]
        self.room.put("script", "".join(line + "\n" for line in lines))
        words = [file, *self.options, "--script", "script", "--out", "o.sgy"]
        environment = {"LD_PRELOAD": self.library.partition("=")[2], "REFUSE_COUNT": "asked"}
        assert self.room.run(*words, environment=environment).status < 2
        asked = int(self.room.get("asked"))
        assert asked >= first
        kinds = self.sweeps.run(first, asked, ends, words, variables=[self.library, "REFUSE=%"])
        self.sweeps.once([whole[1]], words, variables=[self.library, f"REFUSE={asked + 1}"])
        refused = {int(kind): number for kind, number in kinds if kind.isdigit()}
        return refused, sum(number for kind, number in kinds if kind == "words")
