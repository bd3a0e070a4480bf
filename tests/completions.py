#!/usr/bin/env python3
"""Compares the completions of each shell with what tools/completions writes from the help, and the options that they
offer for a subcommand with those of its help: completions.py PROGRAM

tests/pages runs it. bash runs its completions; those of zsh and fish are read as text.
"""
import importlib.machinery
import importlib.util
import os
import re
import subprocess
import sys

HERE = os.path.dirname(os.path.dirname(os.path.realpath(__file__)))
FOLDER = f"{HERE}/packages/completions"
COMMANDS = ("show", "check", "canon", "loop", "serve", "tap", "proxy", "ask")
# In the help an option begins its line, behind the short name if it has one.
HELPED = re.compile(r"^ +(?:-(\w)(?:, | |$))?(?:--([a-z][a-z0-9-]*))?", re.M)


def written():
    """Loads tools/completions as a module."""
    loader = importlib.machinery.SourceFileLoader("written", f"{HERE}/tools/completions")
    module = importlib.util.module_from_spec(importlib.util.spec_from_loader("written", loader))
    loader.exec_module(module)
    return module


def content(name):
    with open(f"{FOLDER}/{name}", encoding="utf-8") as file:
        return file.read()


def of_help(program, command):
    """The options in the help of a subcommand, with their dashes."""
    ran = subprocess.run([program, command, "--help"], stdout=subprocess.PIPE, stderr=subprocess.DEVNULL)
    # (the options stand in groups, before the examples)
    listed = ran.stdout.decode().partition("Options:\n")[2].partition("\nExamples:\n")[0]
    found = set()
    for short, long in HELPED.findall(listed):
        found |= {f"-{short}"} if short else set()
        found |= {f"--{long}"} if long else set()
    return found


def of_bash(command):
    """The options that bash offers."""
    script = 'source "$0"; COMP_WORDS=(resp "$1" -); COMP_CWORD=2; _resp; printf "%s\\n" "${COMPREPLY[@]}"'
    ran = subprocess.run(["bash", "-c", script, f"{FOLDER}/resp.bash", command], capture_output=True)
    return set(ran.stdout.decode().split())


def of_zsh(command):
    """The options in the arm of the subcommand and in the lists that it names."""
    text = content("_resp")
    lists = dict(re.findall(r"^    (\w+)=\((.*?)\)$", text, re.M | re.S))
    arms = re.findall(r"^        ([a-z |]+)\)(.*?);;", text, re.M | re.S)
    arm = next(it for names, it in arms if command in names.split(" | "))
    for name in re.findall(r"\$(\w+)", arm):
        arm += " " + lists[name]
    return set(re.findall(r"(?:'|\{|,)(--?[a-z0-9][a-z0-9-]*)(?=[\[,}])", arm))


def of_fish(command):
    """The options of the lines whose condition names the subcommand, or that have no condition."""
    text = content("resp.fish")
    conditions = dict(re.findall(r"^set -l (\w+) '(.*)'$", text, re.M))
    found = set()
    for line in text.splitlines():
        if not line.startswith("complete -c resp "):
            continue
        condition = re.search(r" -n (?:'(.*?)'|\$(\w+)|(\w+))", line)
        seen = condition and (condition[1] or conditions.get(condition[2]) or condition[3])
        if seen and command not in seen.split():
            continue
        found |= {f"-{it}" for it in re.findall(r" -s (\w)", line)}
        found |= {f"--{it}" for it in re.findall(r" -l ([a-z0-9-]+)", line)}
    return found


def gaps(program):
    """Returns how the completions differ from the help of the program, a line for each shell and subcommand."""
    wrong = [f"{it}: run tools/completions, which writes it from the help" for it in written().stale(program)]
    for command in COMMANDS:
        helped = of_help(program, command)
        if len(helped) < 4:
            wrong.append(f"{command}: the help has {sorted(helped)} alone")
        for shell, offered in (("bash", of_bash(command)), ("zsh", of_zsh(command)), ("fish", of_fish(command))):
            if offered != helped:
                wrong.append(f"{shell}, {command}: missing {sorted(helped - offered)}, unknown {sorted(offered - helped)}")
    return wrong


if __name__ == "__main__":
    found = gaps(sys.argv[1])
    print("\n".join(found) or "completions: as the help")
    sys.exit(1 if found else 0)
