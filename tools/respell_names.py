#!/usr/bin/env python3
"""Respells the repository's own definitions, lemmas, fields and parameters in the spelling of the language.

    respell_names.py           at the top of the repository: respells it, and writes the rows to tools/respelled.tsv
    respell_names.py FILE ..   at the top of the repository once that is done: respells these older texts alone, a patch or notes

Run the first form once, right after the language's own script and before any edit by hand; a second time it refuses. Words are in
snake case, so

- a word in lower camel case that stands in an .antt file of crates/ gets underscores: `atStep` becomes `at_step`. One that falls
  together with another word is turned all the same, and printed;
- a name with dashes that an .antt file of crates/ declares (one that only a Proof.antt does not count) gets underscores:
  `by-position` becomes `by_position`. Where it would fall together with another word of a file that has both, a field that is read or
  given apart, it ends in `_lem`, as a lemma with the name of a definition does: `tag-length` becomes `tag_length_lem`.

Names of the kit and those that the check makes (behind `goal.`, `c.` and the like) stay. So do Rust's names and strings: they have
neither spelling. In pages, and in comments of .rt files, dashes are turned in code spans alone, as some such words are plain English;
in the texts of the second form everywhere, so read what it did. That form also turns what the language's own script turned here: a
word whose new spelling an .antt file declares.
"""
import pathlib
import re
import sys

CAMEL = re.compile(r"(?<![A-Za-z0-9_'])[a-z][a-z0-9]*(?:[A-Z][a-z0-9]+)+(?![A-Za-z0-9_])")
STRING = re.compile(r'"(?:[^"\\]|\\.)*"')
COMMENT = re.compile(r"(?:^|(?<=\s))--.*")
SPAN = re.compile(r"`[^`\n]+`")
TOKEN = re.compile(r"[^\s(){}.;,@\"«»`]+")
NAME = r"[a-z][\w']*"
DASHED = rf"{NAME}(?:-[\w']+)+"
HEAD = re.compile(r"^(?:abbrev |unfoldable |opaque )?(?:pub )?(?:record |data )?([A-Za-z][\w'-]*)(?: \{[^}]*\})? :", re.M)
NESTED = re.compile(r"^ +(?:abbrev |unfoldable |opaque )?(?:pub )?(?:record |data )?([a-z][\w']*)(?: \{[^}]*\})? :", re.M)
WORD = re.compile(rf"(?<![\w'-]){DASHED}(?![\w'-])")
# What declares dashed names: a definition, lemma or field; a local one; parameters, each a list of words; an import under another name.
DECLARED = [
    re.compile(rf"^ *(?:abbrev |unfoldable |opaque )?(?:pub )?(?:record |data )?({DASHED})(?: \{{[^}}]*\}})* :(?! (?:goal|tie)\.)", re.M),
    re.compile(rf"\b(?:let|in) ({DASHED})(?= :| =)"),
    re.compile(r"[({]([^(){}:=\n]+) :"),
    re.compile(r"λ ([^(){}.\n]+)\."),
    re.compile(rf" as ({DASHED})(?=[,}}])"),
]
# A field that is read or given: it stands beside a lemma of its name.
FIELD = re.compile(rf"(?<=[\w'\])])\.{NAME}|^ +{NAME}(?= = )", re.M)
OF_KIT = re.compile(r"^use (?!Rattle\.(?!std\b|io\b|os\b|bytes\b))[\w.']+\.\{([^}]*)\}", re.M)
# Behind these a name is the check's, and behind any other the field of a record.
MADE = re.compile(r"(?:\b(?:goal|tie|c|w|l|L|g|before|loop|calls|fn|args|requires|ensures|given|new|old|auto|initial)|[-+])\.$")
ROWS = pathlib.Path("tools/respelled.tsv")


def snake(word):
    return re.sub(r"(?<=[a-z0-9])(?=[A-Z])", "_", word).lower()


def code_of(text):
    """The text without its comments."""
    return COMMENT.sub("", text)


def camel_rows(antt):
    words, declared = set(), set()
    for text in antt.values():
        words |= set(CAMEL.findall(text))
        declared |= set(HEAD.findall(text))
    rows = {word: snake(word) for word in sorted(words)}
    for word, new in rows.items():
        if new in declared or list(rows.values()).count(new) > 1:
            print(f"falls together: {word} becomes {new}, which another word is already")
    return rows


def dash_rows(antt):
    """The rows of dashed names, over texts whose camel case is turned already."""
    declared, kit = set(), set()
    for path, text in antt.items():
        if path.name == "Proof.antt":
            continue
        code = code_of(text)
        for pattern in DECLARED:
            declared |= {word for found in pattern.findall(code) for word in found.split() if re.fullmatch(DASHED, word)}
        for names in OF_KIT.findall(text):
            kit |= {it.strip() for it in names.split(",")}
    taken = {}
    for path, text in antt.items():
        tokens = set(TOKEN.findall(FIELD.sub(" ", code_of(text))))
        for word in declared & tokens:
            taken.setdefault(word, set()).update(tokens)
    rows = {}
    for word in sorted(declared - kit):
        new = word.replace("-", "_")
        if new in taken.get(word, ()):
            print(f"would fall together: {word} and {new}; it becomes {new}_lem")
            new += "_lem"
        rows[word] = new
    return rows


def turn_tokens(text, rows):
    def turn(m):
        before = text[max(0, m.start() - 40) : m.start()]
        return m.group(0) if MADE.search(before) else rows.get(m.group(0), m.group(0))

    return TOKEN.sub(turn, text)


def outside(pattern, text, turn, turn_inside):
    """The text with `turn_inside` done to what the pattern finds and `turn` to the rest."""
    out, at = [], 0
    for m in pattern.finditer(text):
        out += [turn(text[at : m.start()]), turn_inside(m.group(0))]
        at = m.end()
    return "".join([*out, turn(text[at:])])


def turn_spans(text, rows):
    return SPAN.sub(lambda m: turn_tokens(m.group(0), rows), text)


def turn_antt(text, camel, dash):
    text = CAMEL.sub(lambda m: camel.get(m.group(0), m.group(0)), text)
    return outside(COMMENT, text, lambda it: turn_tokens(it, dash), lambda it: WORD.sub(lambda m: dash.get(m.group(0), m.group(0)), it))


def turn_edit(text, camel, dash):
    """An edit of must-fail/: its first words, behind '#', say the wrong answer and stay."""
    return "\n".join(it if it.startswith("#") else turn_antt(it, camel, dash) for it in text.split("\n"))


def turn_code(text, camel, dash):
    turned = outside(STRING, text, lambda it: CAMEL.sub(lambda m: camel.get(m.group(0), m.group(0)), it), lambda it: it)
    return turn_spans(turned, dash)


def turn_page(text, camel, dash, declared):
    # (pages also name what the language's own script has respelled already)
    def turn(m):
        new = snake(m.group(0))
        return camel.get(m.group(0), new if new in declared else m.group(0))

    return turn_spans(CAMEL.sub(turn, text), dash)


def read_antt(top):
    return {it: it.read_text() for folder in ("specs", "proofs") for it in sorted(top.glob(f"crates/*/{folder}/**/*.antt"))}


def respell():
    if ROWS.exists():
        sys.exit(f"{ROWS} is there: this was done, and what was written since has the new spelling")
    top = pathlib.Path(".")
    antt = read_antt(top)
    camel = camel_rows(antt)
    declared = {word for text in antt.values() for word in HEAD.findall(text)}
    dash = dash_rows({path: CAMEL.sub(lambda m: camel.get(m.group(0), m.group(0)), text) for path, text in antt.items()})
    changed = 0
    turns = [(antt, lambda it: turn_antt(it, camel, dash))]
    for pattern, turn in (
        ("crates/*/src/**/*.rt", lambda it: turn_code(it, camel, dash)),
        ("crates/*/must-fail/*.edit", lambda it: turn_edit(it, camel, dash)),
        ("docs/**/*.md", lambda it: turn_page(it, camel, dash, declared)),
        ("*.md", lambda it: turn_page(it, camel, dash, declared)),
    ):
        turns.append((sorted(top.glob(pattern)), turn))
    for files, turn in turns:
        for path in files:
            text = path.read_text()
            new = turn(text)
            if new != text:
                path.write_text(new)
                changed += 1
    ROWS.parent.mkdir(exist_ok=True)
    ROWS.write_text("".join(f"{old}\t{new}\n" for old, new in sorted({**camel, **dash}.items())))
    print(f"respelled: {len(camel)} words in camel case, {len(dash)} with dashes, {changed} files")


class Rows(dict):
    """The rows of one spelling; a word of it that has none is turned too, if its new spelling is declared."""

    def __init__(self, rows, new_of, declared):
        super().__init__(rows)
        self.new_of, self.declared = new_of, declared

    def get(self, word, default=None):
        new = self.new_of(word)
        return super().get(word, new if new in self.declared else default)


def respell_texts(files):
    declared = {word for text in read_antt(pathlib.Path(".")).values() for word in HEAD.findall(text) + NESTED.findall(text)}
    rows = dict(it.split("\t") for it in ROWS.read_text().splitlines())
    camel = Rows({old: new for old, new in rows.items() if "-" not in old}, snake, declared)
    dash = Rows({old: new for old, new in rows.items() if "-" in old}, lambda it: it.replace("-", "_"), declared)
    for file in files:
        path = pathlib.Path(file)
        text = path.read_text()
        new = turn_antt(text, camel, dash)
        path.write_text(new)
        print(f"{file}: {'respelled' if new != text else 'has no such name'}")


def main():
    if sys.argv[1:]:
        respell_texts(sys.argv[1:])
    else:
        respell()


if __name__ == "__main__":
    sys.exit(main())
