#!/usr/bin/env python3
"""Lists the functions of crates/*/src whose bodies are the same text but for names, numbers and strings, group by group.

    python3 tools/same_text.py        at the top of the repository
"""
import collections
import re
import subprocess

KEPT = {"if", "else", "let", "mut", "while", "loop", "match", "return", "for", "in", "as"}
SIGNATURE_END = re.compile(r"\n\s*\{\n|\)\s*(->[^\n{]*)?\{\n")


def body(text, start):
    """The text between the brace that ends at `start` and the one that closes it."""
    deep, at = 1, start
    while deep and at < len(text):
        deep += (text[at] == "{") - (text[at] == "}")
        at += 1
    return text[start : at - 1]


def skeleton(text):
    text = re.sub(r'b?"[^"]*"', "S", text)
    text = re.sub(r"[A-Za-z_][A-Za-z_0-9]*", lambda word: word[0] if word[0] in KEPT else "x", text)
    text = re.sub(r"\b0x[0-9A-Fa-f_]+|\b[0-9][0-9_]*", "n", text)
    text = re.sub(r"(x(::|\.))+x", "x", text)
    return re.sub(r"\s+", "", text)


def main():
    listed = subprocess.run(["git", "ls-files", "crates/*/src/*.rt"], capture_output=True, text=True, check=True)
    groups = collections.defaultdict(list)
    for name in listed.stdout.split():
        text = re.sub(r"//.*", "", open(name, encoding="utf-8").read())
        for function in re.finditer(r"\bfn ([a-z_0-9]+)", text):
            end = SIGNATURE_END.search(text, function.end())
            if end:
                key = skeleton(body(text, end.end()))
                if len(key) >= 8:
                    groups[key].append(name.replace("crates/", "").replace("/src/", "/") + ":" + function[1])
    alike = sorted((group for group in groups.values() if len(group) > 1), key=lambda group: -len(group))
    for group in alike:
        print(len(group), " ".join(group))
    print(sum(map(len, alike)), "functions in", len(alike), "groups")


if __name__ == "__main__":
    main()
