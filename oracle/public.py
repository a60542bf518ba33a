#!/usr/bin/env python3
"""Holds the Rust decoder against public ANTLR, by running both.

    oracle/build.sh
    python3 oracle/public.py [--seed S] [--count N] [--java JAR]

Public ANTLR is its Python runtime (pip package antlr4-python3-runtime 4.13.2) and, with --java, its Java runtime 4.7.2
too: JAR is its antlr4-runtime jar (Debian package libantlr4-runtime-java), asked through Public.java.

Asked are the demos of demos.txt, where each voice's answer is written down and must come; the real dialects of samples/
and random lexers as ANTLR's tool builds them (built.py), where all must answer alike; random sets; and, edge by edge,
which symbols match, at the borders of what the edges name. Compared is what both have: tail calls are the Rust's own, so
their marks are left out. What the Python runtime has besides is in demos.txt, `beyond`.

Exit status 1 where anything is not as said, 2 where the oracle or a runtime is missing.
"""

import argparse
import collections
import os
import random
import re
import shutil
import subprocess
import sys

sys.dont_write_bytecode = True  # so that a run leaves nothing behind

import built  # noqa: E402
import lists  # noqa: E402
from told import ORACLE, Network, Walk, ask, refusal, spelled  # noqa: E402

HERE = os.path.dirname(os.path.abspath(__file__))
RECORDED = "4.13.2"  # the version of the Python runtime whose answers demos.txt has
SAMPLES = ("xpathlexer", "autolevlexer", "latexlexer", "unicode")
ENDED = "ERR IndexError, ATNDeserializer.py 365"  # how the Python runtime says that the words ended: its readInt
BOUNDS = ((0, 0x10FFFF), (lists.MIN, lists.MAX), (66, 66), (9, 1))  # min and max, the last with nothing between them
SYMBOLS = 200  # so many of one list's borders at most

# ---- the voices


def lines_of(many):
    return [spelled(words) for words in many]


def rust(many):
    """For each list the Rust's answer and the words it rests on; a refusal as document 01 has it, without its record."""
    answers = []
    for words, reply in zip(many, ask(lines_of(many), "--probe")):
        at, verdict, rest = (reply.split(" ", 2) + [""])[:3]
        read = int(at.removeprefix("@"))
        answers.append(("OK " + rest if verdict == "OK" else "refused %d %d %d %d" % refusal(rest, Walk(words[:read]))[:4], read))
    return answers


def unmarked(text):
    """The network without the marks of tail calls, which public ANTLR does not have."""
    return re.sub(r" 1 \)", " 0 )", text)


def java(jar, many):
    """For each list the Java runtime's answer, if there is a jar."""
    if jar is None:
        return [None] * len(many)
    # its warnings about lists that no tool writes go to standard error
    command = ["java", "-cp", jar, os.path.join(HERE, "Public.java")]
    done = subprocess.run(command, input="".join(line + "\n" for line in lines_of(many)), stdout=subprocess.PIPE, stderr=subprocess.DEVNULL,
                          text=True, check=True)
    replies = done.stdout.splitlines()
    if len(replies) != len(many):
        raise ValueError("the Java runtime did not answer every line")
    return replies


# ---- the demos


class Demo:
    def __init__(self, title, words):
        self.title, self.words, self.said, self.got = title, words, {}, {}

    def ask_python(self, runtime):
        strict = runtime.Told(self.words)
        self.got["python"] = strict.text
        if "loose" in self.said:
            self.got["loose"] = runtime.Told(self.words, verify=False).text
        if "beyond" in self.said:
            self.got["beyond"] = runtime.beyond(strict.atn)

    def verdict(self):
        """The verdict, and what came instead of what is said."""
        expected = {name: unmarked(self.said["rust"]) if text == "the same" else text for name, text in self.said.items()}
        wrong = ["%s: said %s; came %s" % (name, expected[name], self.got[name])
                 for name in expected if self.got[name] is not None and self.got[name] != expected[name]]
        if wrong:
            return "NOT AS SAID", wrong
        if self.said["rust"].startswith("refused") and self.said["python"].startswith("ERR"):
            return "both refuse", wrong
        return "the same" if self.said["python"] == "the same" and "beyond" not in self.said else "differs as said", wrong


def read_demos():
    demos = []
    with open(os.path.join(HERE, "demos.txt"), encoding="utf-8") as file:
        for line in file:
            if line.startswith(" "):
                name, text = line.split(None, 1)
                demos[-1].said[name] = text.strip()
            elif not line.startswith("#"):
                title, _, words = line.rpartition(":")
                demos.append(Demo(title, [int(word) for word in words.split()]))
    return demos


def show_demos(runtime, jar):
    """Prints a line for each demo, and counts the verdicts."""
    demos = read_demos()
    many = [demo.words for demo in demos]
    verdicts = collections.Counter()
    for demo, (answer, _), of_java in zip(demos, rust(many), java(jar, many)):
        demo.got.update(rust=answer, java=of_java)
        demo.ask_python(runtime)
        verdict, wrong = demo.verdict()
        verdicts[verdict] += 1
        print("%-16s %s" % (verdict, demo.title))
        for line in wrong:
            print("    " + line)
    print("%d demos: %s" % (len(demos), ", ".join("%d %s" % (n, verdict) for verdict, n in sorted(verdicts.items()))))
    return verdicts["NOT AS SAID"]


# ---- lists on which all must answer alike


class Family:
    """Lists of one kind. Says how many were compared, and the shortest one that is answered differently."""

    def __init__(self, name, many):
        self.name, self.many, self.wrong = name, many, []

    def differ(self, words, *answers):
        self.wrong.append((len(words), spelled(words), answers))

    def close(self, what):
        print("%-28s %6d lists: %s" % (self.name, len(self.many), "%d DIFFER" % len(self.wrong) if self.wrong else what))
        for _, words, answers in sorted(self.wrong)[:1]:
            print("    words: %s" % words)
            for answer in answers:
                print("    %s" % answer)
        return len(self.wrong)


def decoded_alike(runtime, name, many, verify=True):
    """The same network, after as many words."""
    family = Family(name, many)
    for words, (answer, read) in zip(many, rust(many)):
        python = runtime.Told(words, verify)
        if not answer.startswith("OK") or (unmarked(answer), read) != (python.text, python.read):
            family.differ(words, answer, "words read %d" % read, python.text, "words read %d" % python.read)
    return family.close("all the same")


def ended_alike(runtime, name, many):
    family = Family(name, many)
    for words, (answer, _) in zip(many, rust(many)):
        python = runtime.Told(words).text
        if not answer.startswith("refused 1 ") or python != ENDED:
            family.differ(words, answer, python)
    return family.close("refused by both as ended")


def java_alike(jar, name, many):
    family = Family(name, many)
    skipped = 0
    for words, (answer, _), of_java in zip(many, rust(many), java(jar, many)):
        skipped += of_java == "SKIP"
        if of_java not in ("SKIP", unmarked(answer)):
            family.differ(words, answer, of_java)
    return family.close("the same, but for %d with no version-3 form" % skipped if skipped else "all the same")


def borders(rng, text):
    """Symbols at both sides of every number that an edge names."""
    found = {-1, 0, lists.MIN, lists.MAX}
    for _, _, p, q, _, _ in (edge for edges in Network(text.removeprefix("OK ")).edges for edge in edges):
        ends = [end for part in p for end in part] if isinstance(p, list) else [p, q]
        found.update(end + step for end in ends for step in (-1, 0, 1))
    found = sorted(symbol for symbol in found if lists.MIN <= symbol <= lists.MAX)
    return found if len(found) <= SYMBOLS else sorted(rng.sample(found, SYMBOLS))


def matched_alike(runtime, rng, name, many, verify=True):
    """Whether each edge matches each border, for each pair of min and max."""
    family = Family(name, many)
    asked = 0
    for words in many:
        atn = runtime.Told(words, verify).atn
        symbols = borders(rng, rust([words])[0][0])
        lines = [spelled(["M", least, most, len(symbols), *symbols, *words]) for least, most in BOUNDS]
        for (least, most), reply in zip(BOUNDS, ask(lines)):
            python = runtime.matching(atn, symbols, least, most)
            asked += reply.count("0") + reply.count("1")
            if reply != python:
                family.differ(words, "min %d, max %d, symbols %s" % (least, most, spelled(symbols)), reply, python)
    return family.close("all the same, %d questions" % asked)


def show_alike(runtime, jar, rng, count):
    samples = [lists.sample(name) for name in SAMPLES]
    lexers = [built.lexer(rng) for _ in range(count)]
    # verifyATN is off for these: one state has an edge over each set
    sets = [lists.over_sets(*(built.any_set(rng) for _ in range(4))) for _ in range(count)]
    behind = [words + lists.random_words(rng, rng.randint(1, 12)) for words in samples + lexers]
    cut = [words[:rng.randrange(len(words))] for words in samples + lexers]
    wrong = decoded_alike(runtime, "real dialects", samples)
    wrong += decoded_alike(runtime, "as the tool builds them", lexers)
    wrong += decoded_alike(runtime, "with words behind", behind)
    wrong += ended_alike(runtime, "cut", cut)
    wrong += decoded_alike(runtime, "sets", sets, verify=False)
    wrong += matched_alike(runtime, rng, "matching, real dialects", samples)
    wrong += matched_alike(runtime, rng, "matching, as the tool builds", lexers[:count // 4])
    wrong += matched_alike(runtime, rng, "matching, sets", sets[:count // 4], verify=False)
    if jar:
        wrong += java_alike(jar, "Java, real dialects", samples)
        wrong += java_alike(jar, "Java, as the tool builds them", lexers)
    return wrong


def missing(why):
    print("NOT RUN: " + why)
    sys.exit(2)


def main():
    options = argparse.ArgumentParser(description="Holds the Rust decoder against public ANTLR.")
    options.add_argument("--seed", type=int, default=1)
    options.add_argument("--count", type=int, default=1000)
    options.add_argument("--java", metavar="JAR")
    chosen = options.parse_args()
    if not os.path.exists(ORACLE):
        missing("the oracle is not built; oracle/build.sh builds it")
    if chosen.java and not (os.path.exists(chosen.java) and shutil.which("java")):
        missing("there is no java, or no such jar")
    try:
        import runtime
    except ImportError:
        missing("the Python runtime is not installed; pip install antlr4-python3-runtime==%s" % RECORDED)
    print("The Rust and %s %s, seed %d" % (runtime.PACKAGE, runtime.VERSION, chosen.seed))
    if runtime.VERSION != RECORDED:
        print("demos.txt has the answers of %s: another version may give up at other lines" % RECORDED)
    print("Java: asked too, by Public.java" if chosen.java else "Java: not asked (--java); what demos.txt says of it is not checked in this run")
    wrong = show_demos(runtime, chosen.java)
    wrong += show_alike(runtime, chosen.java, random.Random(chosen.seed), chosen.count)
    print("%d not as said" % wrong)
    sys.exit(1 if wrong else 0)


if __name__ == "__main__":
    main()
