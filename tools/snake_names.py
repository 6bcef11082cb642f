#!/usr/bin/env python3
"""Brings the repository's own names in specs, proofs, clauses and pages to one spelling: words in snake case, types in upper camel case.

usage: tools/snake_names.py [--check]     at the top of the repository, once, after the kit's port.py

What turns: each name of specs/ and proofs/ that has a dash or a capital inside (`n-back`, `nOfPlace`, `Demand-2`), where it is declared and where it is used.
What stays: a name that a file imports from elsewhere than this repository, a name behind a dot that is no field of a record here (those are Rattle's own),
names of operators, everything of src/ outside clauses. A string that holds such a name turns too, and is mended by hand. Names that would fall together get the spelling of OTHER.
--check writes nothing. Names that fall together in one file, or that would be hidden by a parameter, are printed, and nothing is written.
"""

import collections
import os
import re
import sys

# where two names would be one, or a name would be another thing's
OTHER = {
    "altEnd": "alt_end_at",
    "altStart": "alt_start_at",
    "ask-c-to-g": "ask_c_to_g_lem",
    "ask-c-to-n": "ask_c_to_n_lem",
    "ask-g-to-c": "ask_g_to_c_lem",
    "ask-g-to-n": "ask_g_to_n_lem",
    "ask-in-bounds": "ask_in_bounds_lem",
    "ask-n-to-c": "ask_n_to_c_lem",
    "ask-n-to-g": "ask_n_to_g_lem",
    "both-given": "given_both",
    "c-fits": "c_fits_lem",
    "c-of-place": "c_of_place_lem",
    "cToG": "map_c_to_g",
    "cToN": "map_c_to_n",
    "entries_from": "entries_from_lem",
    "gToC": "map_g_to_c",
    "gToN": "map_g_to_n",
    "genome-length": "genome_length_lem",
    "inBounds": "lies_in_bounds",
    "input-made": "input_made_lem",
    "input-played": "input_played_lem",
    "looks-after": "looks_after_lem",
    "low-ends": "low_ends_hold",
    "made-of": "made_of_lem",
    "mark-of": "mark_of_lem",
    "mark-up": "mark_up_lem",
    "n-fits": "n_fits_lem",
    "n-of-c": "n_of_c_lem",
    "n-of-place": "n_of_place_lem",
    "nToC": "map_n_to_c",
    "nToG": "map_n_to_g",
    "no-card": "no_card_lem",
    "no-cds": "no_cds_in",
    "no_room": "no_room_lem",
    "numbers-hold": "numbers_hold_lem",
    "one-to-c": "one_to_c_lem",
    "or-else": "or_else_lem",
    "reads-back": "reads_back_lem",
    "rises-at": "rises_at_lem",
    "tables-of": "tables_made",
    "transcript-length": "transcript_length_lem",
    "txEnd": "tx_end_at",
    "txStart": "tx_start_at",
}

# a parameter and a field of one name, which no place sees as one
SHARED = {"end_offset", "start_offset", "counts_room", "letters_room"}

WORD = re.compile(r'[^\s(){}.;,@"«»]+')
COMMENT = re.compile(r"(?<![^\s(){};,.])--[^\n]*")
USE = re.compile(r"^(?:ghost )?use ([A-Za-z_'0-9+]+(?:\.[A-Za-z_'0-9+]+)*)(?:\.\{([^}]*)\})?", re.M)
CLAUSE = re.compile(r"(?:requires|ensures)\s*\*?\s*(?:\w+\s*)?\{|ghost\s+(?!use)(?:\w+\s*(?::\s*(?:(?:owns|lends)\s*)?|=\s*))?\{")
GHOST_USE = re.compile(r"ghost\s+use\b[^;]*;")
SPAN = re.compile(r"`[^`\n]*`")


def snake(word):
    """The word in today's spelling, or the word itself."""
    if word in OTHER:
        return OTHER[word]
    if "◌" in word or not re.search(r"[a-zA-Z0-9]", word) or word[0] in "-'" or word[-1] == "-":
        return word
    if word[0].isupper() and word[0].isascii():
        if "-" not in word:
            return word
        return "".join(p[:1].upper() + p[1:] for p in re.split("[-_]", word))
    word = re.sub(r"(?<=[^-])-(?=[^-])", "_", word)
    word = re.sub(r"([a-z0-9'])([A-Z])", r"\1_\2", word)
    word = re.sub(r"([A-Z]+)([A-Z][a-z])", r"\1_\2", word)
    return re.sub(r"[A-Z]", lambda m: m[0].lower(), re.sub(r"__+", "_", word))


def turns(word):
    return snake(word) != word


def closing(text, at):
    depth = 1
    while at < len(text):
        if text[at] == "{":
            depth += 1
        elif text[at] == "}":
            depth -= 1
            if not depth:
                return at
        at += 1
    return at


def files():
    for folder, dirs, names in os.walk("crates"):
        dirs[:] = sorted(d for d in dirs if d not in ("out", "must-fail", "data"))
        for n in sorted(names):
            if n.endswith((".antt", ".rt")):
                yield os.path.join(folder, n)


def own_crates():
    return {d for d in os.listdir("crates") if os.path.isdir(os.path.join("crates", d))}


def pieces(path, text):
    """The text in parts, each with whether it is antt."""
    if path.endswith(".antt"):
        return [(True, text)]
    out, at = [], 0
    for m in sorted([*CLAUSE.finditer(text), *GHOST_USE.finditer(text)], key=lambda m: m.start()):
        if m.start() < at:
            continue
        line = text[text.rfind("\n", 0, m.start()) + 1 : m.start()]
        if "//" in line:
            continue
        end = m.end() if text.startswith("ghost", m.start()) and "use" in m[0].split("{")[0] else closing(text, m.end())
        begin = m.start() if text.startswith("ghost", m.start()) and "use" in m[0].split("{")[0] else m.end()
        out += [(False, text[at:begin]), (True, text[begin:end])]
        at = end
    return out + [(False, text[at:])]


def imported(text, crates):
    """What the file imports from elsewhere, and the modules of this repository, Rattle's own aside, that it imports under another name."""
    foreign, aliases = set(), set()
    for m in USE.finditer(text):
        head = m[1].split(".")
        own = head[0] == "Rattle" and len(head) > 1 and head[1] in crates
        for item in (m[2] or "").split(","):
            words = item.split(" as ")
            if not own and words[0].strip():
                foreign.update(w.strip() for w in words)
        alias = re.match(r"[^\n]*? as (\S+?);?$", text[m.start() : text.find("\n", m.start())])
        made = {"Tie", "Goals", "Given", "Statement", "contracts", "declared", "TheLaws"} & set(head)
        if own and not made and not m[2] and alias:
            aliases.add(alias[1])
    return foreign, aliases


def fields(texts):
    """The fields of the records that the repository declares."""
    found = set()
    for path, text in texts.items():
        if not path.endswith(".antt"):
            continue
        depth = None
        for line in text.splitlines():
            indent = len(line) - len(line.lstrip())
            if re.match(r"\s*(?:pub )?record \S", line) and not line.strip().startswith("--"):
                depth = indent
            elif depth is not None and line.strip() and not line.strip().startswith("--"):
                m = re.match(r"\s+(?:pub )?([^\s:(){}]+) :", line)
                if indent <= depth:
                    depth = None
                elif m:
                    found.add(m[1])
    return found


def declared(texts):
    """The names that the repository declares at the head of a line."""
    found = set()
    for path, text in texts.items():
        if path.endswith(".antt"):
            for m in re.finditer(r"^\s*(?:(?:abbrev|unfoldable|pub|irreducible)\s+)*(?:(?:record|data|ruleset)\s+)?([^\s(){}:.;,=]+)\s*(?:[:=]|\(|\{)", text, re.M):
                found.add(m[1])
    return found


def turn_code(text, foreign, aliases, behind, seen):
    def one(m):
        word, at = m[0], m.start()
        if text[at - 1 : at] == ".":
            head = re.search(r"([^\s(){}.;,@\"]+)\.$", text[:at])
            if text[at - 2 : at - 1] == "{" or text[max(0, at - 2) : at] == ".{":
                pass
            elif word not in behind and not (head and head[1] in aliases):
                return word
        elif word in foreign:
            return word
        if turns(word):
            seen[word].add(snake(word))
            return snake(word)
        seen[word].add(word)
        return word

    # the names in braces behind a module's path: those of another library stay
    return WORD.sub(one, text)


def turn_use(text, crates, seen):
    def one(m):
        head = m[1].split(".")
        own = head[0] == "Rattle" and len(head) > 1 and head[1] in crates
        if not own or m[2] is None:
            return m[0]
        return m[0].replace("{" + m[2] + "}", "{" + WORD.sub(lambda w: snake(w[0]), m[2]) + "}")

    return USE.sub(one, text)


def turn_antt(text, crates, foreign, aliases, behind, known, seen):
    out, at = [], 0

    def code(part):
        done, last = [], 0
        for m in re.finditer(r"^(?:ghost )?use [^\n]*(?:\n(?=[^\n]*\})[^\n]*)?", part, re.M):
            done += [turn_code(part[last : m.start()], foreign, aliases, behind, seen), turn_use(m[0], crates, seen)]
            last = m.end()
        return "".join(done) + turn_code(part[last:], foreign, aliases, behind, seen)

    for m in COMMENT.finditer(text):
        out += [code(text[at : m.start()]), turn_words(m[0], known)]
        at = m.end()
    return "".join(out) + code(text[at:])


def turn_words(text, known):
    """A comment, or a span of a page: the words that the repository declares."""
    return re.sub(r"[^\s(){}.;,@\"«»`:]+", lambda m: snake(m[0]) if m[0] in known and turns(m[0]) else m[0], text)


def main():
    crates = own_crates()
    texts = {p: open(p, encoding="utf-8").read() for p in files()}
    behind, known = fields(texts), declared(texts)
    bad, new = [], {}
    for path, text in texts.items():
        foreign, aliases = imported(text, crates)
        seen = collections.defaultdict(set)
        # a hyphenated word of a comment is English unless the file has it as a name
        here = {w for is_antt, t in pieces(path, text) if is_antt for w in WORD.findall(COMMENT.sub(" ", t))} & known
        out = []
        for is_antt, part in pieces(path, text):
            if is_antt:
                out.append(turn_antt(part, crates, foreign, aliases, behind, here, seen))
            else:
                out.append(re.sub(r"//[^\n]*", lambda m: SPAN.sub(lambda s: turn_words(s[0], known), m[0]), part))
        new[path] = "".join(out)
        back = collections.defaultdict(set)
        for old, to in seen.items():
            for t in to:
                back[t].add(old)
        for t, olds in sorted(back.items()):
            if t in SHARED:
                continue
            if len(olds) > 1 or (any(turns(o) for o in olds) and t in foreign):
                bad.append(f"{path}: {sorted(olds)} would all be {t}{' and what it imports' if t in foreign else ''}")
        if path.endswith(".rt"):
            words = {snake(o) for o in seen if turns(o)}
            for m in re.finditer(r"fn (\w+)(?:<[^>]*>)?\(([^)]*)\)", text):
                for p in re.findall(r"(\w+)\s*:", m[2]):
                    if p in words:
                        bad.append(f"{path}: {p} would be hidden by a parameter of {m[1]}")
    for line in bad:
        print(line)
    if bad or "--check" in sys.argv:
        print(f"{len(bad)} names fall together; {sum(new[p] != texts[p] for p in new)} files would change")
        return 1 if bad else 0
    for path, text in new.items():
        if text != texts[path]:
            with open(path, "w", encoding="utf-8") as f:
                f.write(text)
    pages = ["README.md"] + [os.path.join("docs", n) for n in sorted(os.listdir("docs")) if n.endswith(".md")]
    for page in pages:
        text = open(page, encoding="utf-8").read()
        with open(page, "w", encoding="utf-8") as f:
            f.write(SPAN.sub(lambda m: turn_words(m[0], known), text))
    print(f"{sum(new[p] != texts[p] for p in new)} files changed")
    return 0


if __name__ == "__main__":
    raise SystemExit(main())
