#!/usr/bin/env python3
"""Brings the names of definitions and lemmas to the spelling of today's Rattle.

usage: python3 tools/respell.py        at the top of the repository, once, after the kit's own script

A word of specs/, proofs/ and of a clause that is spelled `likeThis` or `like-this` becomes `like_this`, unless it is one of a
library's: those are the words that some `use` line takes from a module outside this repository. A type keeps its capital. Where
a lemma would fall together with a definition, it gets `_lem`. Functions of src/, strings, inputs and outputs keep their names.
"""

import os
import re

WORD = re.compile(r"[^\s(){}.;,@\"«»\[\]`]+")
USE = re.compile(r"^use ([^\n{]+)\.\{([^}]*)\}", re.M)
CLAUSE = re.compile(r"\b(?:requires|ensures)\b[^{\n]*\{|\bghost use [^{;]*\{")
SPAN = re.compile(r"`[^`\n]*`")

# names that would fall together with another one, and the one type that was spelled as a word
APART = {
    "all-below": "all_below_lem",
    "any_below": "any_below_lem",
    "bad-turn": "bad_turn_lem",
    "bit-and": "bit-bit_and",
    "bit-or": "bit-bit_or",
    "constraint-at": "constraint_at_lem",
    "constraint-checks": "constraint_checks_lem",
    "first-at": "first_at_lem",
    "first_below": "first_below_lem",
    "first-fault": "first_fault_lem",
    "further-in-order": "further_in_order_lem",
    "has-count": "has_count_lem",
    "has-list": "has_list_lem",
    "has-work": "has_work_lem",
    "in-domain": "in_domain_lem",
    "in_scope": "in_scope_lem",
    "is-ready": "is_ready_lem",
    "is-reply": "is_reply_lem",
    "is-worker": "is_worker_lem",
    "label-count": "label_count_lem",
    "labels-to": "labels_to_lem",
    "limit-accepts": "limit_accepts_lem",
    "list-first": "list_first_lem",
    "lists-read": "lists_read_lem",
    "lowest-empty": "lowest_empty_lem",
    "may-answer": "may_answer_lem",
    "may-send": "may_send_lem",
    "new-poll": "new_poll_lem",
    "next-number": "next_number_lem",
    "on-its-way": "on_its_way_lem",
    "own-linked": "own_linked_lem",
    "pair-limit": "pair_limit_lem",
    "pair-limits": "pair_limits_lem",
    "plan-check": "plan_check_lem",
    "poll-open": "poll_open_lem",
    "same-pair": "same_pair_lem",
    "support-count": "support_count_lem",
    "table-accepts": "table_accepts_lem",
    "to-send": "to_send_lem",
    "turn-bound": "turn_bound_lem",
    "variable-of": "variable_of_lem",
    "joinedBy": "JoinedBy",
}


def files(root, *ends):
    for folder, dirs, names in os.walk(root):
        dirs[:] = sorted(d for d in dirs if d not in ("out", ".git", "target"))
        for name in sorted(names):
            if name.endswith(ends):
                yield os.path.join(folder, name)


def read(path):
    with open(path, encoding="utf-8") as f:
        return f.read()


def parts(text):
    """The code and the comments of an .antt file, in turn."""
    at = 0
    for m in re.finditer(r"(?:(?<=\s)|^)--[^\n]*", text, re.M):
        yield text[at : m.start()], m.group()
        at = m.end()
    yield text[at:], ""


def clauses(text):
    """Where the clauses and `ghost use` items of a .rt file stand: pairs of a start and an end."""
    for m in CLAUSE.finditer(text):
        if "//" in text[text.rfind("\n", 0, m.start()) + 1 : m.start()]:
            continue
        depth, at = 1, m.end()
        while depth:
            depth += {"{": 1, "}": -1}.get(text[at], 0)
            at += 1
        yield m.end(), at


def spelled(word):
    word = re.sub(r"([a-z0-9])([A-Z])", lambda m: m.group(1) + "_" + m.group(2).lower(), word)
    return word.replace("-", "_")


def table(root):
    """Each of the repository's words that is to be respelled, with its new spelling."""
    theirs, words = set(), set()
    for path in files(root, ".antt"):
        text = "".join(code for code, _ in parts(read(path)))
        for module, names in USE.findall(text):
            if not module.startswith("Rattle.") or module.startswith("Rattle.std."):
                theirs.update(name.split(" as ")[0].strip() for name in names.split(","))
        if not path.endswith("/Proof.antt"):
            words.update(WORD.findall(text))
    for path in files(root, ".rt"):
        text = read(path)
        for start, end in clauses(text):
            words.update(WORD.findall(text[start:end]))
    turned = {}
    for word in words - theirs:
        if re.match(r"[a-z◌][\w'◌-]*$", word) and re.search(r"[a-z][A-Z]|\w-\w", word):
            turned[word] = spelled(word)
    turned.update(APART)
    return turned


def main():
    root = os.path.join(os.path.dirname(os.path.abspath(__file__)), "..")
    crates = os.path.join(root, "crates")
    turned = table(crates)
    operators = {word.strip("◌"): new.strip("◌") for word, new in turned.items() if word.startswith("◌")}
    turned.update(operators)

    def words(text):
        return WORD.sub(lambda m: turned.get(m.group(), m.group()), text)

    known = set(turned.values())
    for path in files(crates, ".antt"):
        known.update(WORD.findall(read(path)))

    def named(m):
        word = turned.get(m.group(), m.group())
        return spelled(word) if word not in known and spelled(word) in known else word

    def spans(text):
        return SPAN.sub(lambda m: WORD.sub(named, m.group()), text)

    def antt(text):
        return "".join(words(code) + spans(comment) for code, comment in parts(text))

    def rt(text):
        out, at = "", 0
        for start, end in clauses(text):
            out += text[at:start] + words(text[start:end])
            at = end
        out += text[at:]
        return re.sub(r"//[^\n]*", lambda m: spans(m.group()), out)

    def change(path, turn):
        text = read(path)
        new = turn(text)
        if new != text:
            with open(path, "w", encoding="utf-8") as f:
                f.write(new)

    for path in files(crates, ".antt"):
        change(path, antt)
    for path in files(crates, ".rt"):
        change(path, rt)
    for path in files(root, ".md"):
        change(path, spans)


if __name__ == "__main__":
    main()
