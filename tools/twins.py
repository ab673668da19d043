#!/usr/bin/env python3
"""Lists functions of crates/*/src whose bodies are alike but for names, numbers and types: candidates for one generic function.

usage: tools/twins.py [LEAST]     bodies of fewer tokens (20) are left out
"""
import collections, glob, os, re, sys

WORDS = {"if", "else", "match", "for", "while", "loop", "in", "return", "let", "mut", "as", "break", "true", "false", "Some", "None", "Ok", "Err"}
TOKEN = re.compile(r"\"(?:[^\"\\]|\\.)*\"|'[a-z]+|[A-Za-z_]\w*|\d\w*|[^\sA-Za-z_0-9]")


def body_behind(text, at):
    """From the function's name on: its body in braces, which are not those of a clause."""
    depth, begin, clause = 0, None, False
    for m in re.compile(r"\b(?:requires|ensures)\b[^{\n]*\{|[{}]|;").finditer(text, at):
        if depth == 0 and m.group() == ";":
            return ""
        if depth == 0:
            clause, begin = m.group()[0] in "re", m.start()
        depth += -1 if m.group() == "}" else m.group().count("{")
        if depth == 0 and not clause:
            return text[begin:m.end()]
    return ""


def shape(body):
    body = re.sub(r"//[^\n]*", "", body)
    return " ".join(t if t in WORDS or not (t[0].isalnum() or t[0] in "_\"'") else "." for t in TOKEN.findall(body))


def main():
    least = int(sys.argv[1]) if len(sys.argv) > 1 else 20
    alike = collections.defaultdict(list)
    for path in sorted(glob.glob("crates/*/src/**/*.rt", recursive=True)):
        text = open(path).read()
        for m in re.finditer(r"\bfn (\w+)", text):
            form = shape(body_behind(text, m.end()))
            if len(form.split()) >= least:
                alike[form].append(f"{path}: {m.group(1)}")
    found = [names for names in alike.values() if len(names) > 1]
    for names in found:
        print("; ".join(names))
    print(f"{len(found)} forms that more than one function has")


os.chdir(os.path.dirname(os.path.dirname(os.path.abspath(__file__))))
main()
