#!/usr/bin/env python3
"""Runs the tests of every crate that has any, and the examples, without a proof: `python3 tools/test.py`, or
`make test`. With names of crates it runs the tests of these alone: `make try CRATE=name`; of quaestor, which is the
program, the examples. What fails is named, with what was said of it. The last line is `N passed, M failed`, and
the status is 1 where any failed or none passed.

`rt try --test` compiles a crate with all that it uses, which takes far longer than its tests. So the tests of many
crates are put into one crate, or four, in a folder for temporary files, each crate's as a module. That can be done
with a crate that has nothing but tests, and with a src/tests.rt without an `impl`, which then sees of its crate
what is public. Any other crate is compiled by itself; and so is each where the joined one is refused, or where
names are given. What can be done at the same time is, on all processors. The examples are run by the program of
dist/ where that is of these sources and whole, and else by one that is compiled, which takes as long as a group."""
import hashlib
import os
import re
import shutil
import subprocess
import sys
import tempfile
import threading
import time
from concurrent.futures import ThreadPoolExecutor
from functools import cache

# How long one crate's tests may take, or the program over one example.
SECONDS = "300"
# How many steps the interpreter goes before the compiled run, which looks for faults of memory too.
STEPS = "100000"
# How long the sources of a crate of the kit are taken to be, where that decides which tests are joined.
KIT_CRATE = 20_000
# Files whose tests run for a minute and more, as many bytes as are compiled in that time.
SLOW = {"program_tests/faults.rt": 300_000}
# The crates that many crates' tests are joined in.
JOINED = ("joined_tests_1", "joined_tests_2", "joined_tests_3", "joined_tests_4")
PRINTING = threading.Lock()
os.chdir(os.path.dirname(os.path.dirname(os.path.realpath(__file__))))


@cache
def text_of(path):
    with open(path, encoding="utf-8") as it:
        return it.read()


def listed():
    """The crates of crates.txt, in its order, each with what it uses."""
    found = {}
    for line in text_of("crates.txt").splitlines():
        name, colon, uses = line.partition("#")[0].partition(":")
        if colon:
            found[name.split()[0]] = uses.split()
    return found


def files_with_tests(name):
    found = [f"{at}/{it}" for at, _, names in os.walk(f"crates/{name}/src") for it in names if it.endswith(".rt")]
    return sorted(it for it in found if "#[test]" in text_of(it))


def parts_of(name, crates):
    """Where a crate's tests can be joined to others: the name of their module, by which path it names its crate, its files by their places in the joined crate, and what it uses. Else None."""
    src = f"crates/{name}/src"
    root = f"{src}/lib.rt"
    if not os.path.isfile(root):
        return None
    if not re.sub(r"//.*|#!?\[[^\]]*\]|\bmod \w+;", "", text_of(root)).strip():
        files = {f"{name}/{it}": f"{src}/{it}" for it in os.listdir(src) if it.endswith(".rt") and it != "lib.rt"}
        if len(files) + 1 != len(os.listdir(src)):
            return None
        return name, f"crate::{name}::", {f"{name}.rt": root, **files}, crates[name]
    own = f"{src}/tests.rt"
    module = f"{name}_tests"
    if files_with_tests(name) == [own] and module not in crates and not re.search(r"^\s*(unsafe )?impl\b", text_of(own), re.M):
        return module, f"{name}::", {f"{module}.rt": own}, [name, *crates[name]]
    return None


def units_of(name, crates):
    """The units in which a crate's tests are joined: its name with the files of each. Slow tests are one by themselves, with the files that have no tests."""
    files = parts_of(name, crates)[2]
    slow = [it for it in files if it in SLOW]
    if not slow:
        return [(name, tuple(files))]
    without = [it for it in files if "#[test]" not in text_of(files[it])]
    return [(name, (*without, *slow)), (name, tuple(it for it in files if it not in slow))]


def join(joined, units, crates, room):
    """Writes a crate of the tests of these units, and returns its name, and the crate of each of its modules."""
    modules, used = {}, []
    for name, places in units:
        module, of_crate, files, uses = parts_of(name, crates)
        for place in places:
            text = re.sub(r"^#!\[.*\]\n", "", text_of(files[place]), flags=re.M)
            if place == f"{name}.rt":
                text = re.sub(r"\bmod (\w+);\n", lambda it: it[0] if f"{name}/{it[1]}.rt" in places else "", text)
            to = f"{room}/crates/{joined}/src/{place}"
            os.makedirs(os.path.dirname(to), exist_ok=True)
            with open(to, "w", encoding="utf-8") as it:
                it.write(re.sub(r"\bcrate::", of_crate, text))
        modules[module] = name
        used += [it for it in uses if it not in used]
    with open(f"{room}/crates/{joined}/src/lib.rt", "w", encoding="utf-8") as it:
        it.write("//! The tests of many crates.\n#![tactic(auto)]\n\n" + "".join(f"mod {it};\n" for it in modules))
    with open(f"{room}/crates.txt", "a", encoding="utf-8") as it:
        it.write(f"{joined} tests_may=Threads+Wait: {' '.join(used)}\n")
    return joined, modules


def rt_try(folder, *words):
    begun = time.time()
    ran = subprocess.run(["rt", "try", *words], cwd=folder, stdin=subprocess.DEVNULL, stdout=subprocess.PIPE, stderr=subprocess.STDOUT, text=True, errors="replace")
    return ran.stdout, time.time() - begun


def results_of(said):
    """The tests that passed, and those that failed, each with what was said of it; None where not all have ended."""
    passed, failed, now = [], {}, None
    for line in said.splitlines():
        found = re.match(r"test (\S+) \.\.\. ?(.*)", line)
        if found and found[2] == "ok":
            passed.append(found[1])
            now = None
        elif found:
            now = failed.setdefault(found[1], [])
            now.append(found[2])
        elif now is not None:
            now.append(line)
    whole = re.search(r"^test result: .* (\d+) passed; (\d+) failed", said, re.M)
    return (passed, failed) if whole and (len(passed), len(failed)) == (int(whole[1]), int(whole[2])) else None


def say(lines):
    with PRINTING:
        print("\n".join(lines), flush=True)


def tell(what, passed, failed, seconds):
    """Prints one line for a crate, and what failed, and returns both numbers."""
    lines = [f"{what}: {passed} passed, {len(failed)} failed ({seconds:.0f} s)"]
    for name, said in failed.items():
        lines += [f"FAILED {name}", *(f"    {it}" for it in said)]
    say(lines)
    return passed, len(failed)


def test_alone(name, room):
    said, seconds = rt_try(f"{room}/crates/{name}", "--test", "--steps", STEPS, "--seconds", SECONDS)
    results = results_of(said)
    if not results:
        return tell(name, 0, {f"{name}: its tests did not end": said.splitlines()}, seconds)
    return tell(name, len(results[0]), {f"{name}::{test}": said for test, said in results[1].items()}, seconds)


def test_joined(joined, modules, room, submit):
    """The results of the joined crate, or the tasks of each crate by itself."""
    said, seconds = rt_try(f"{room}/crates/{joined}", "--test", "--steps", STEPS, "--seconds", SECONDS)
    results = results_of(said)
    if not results:
        why = [it for it in said.splitlines() if not it.startswith("test ")]
        say([f"the tests of {len(modules)} crates as one did not end ({seconds:.0f} s), so each crate is compiled by itself:", *(f"    {it}" for it in why)])
        return [submit(test_alone, it, room) for it in modules.values()]
    found = []
    for module, name in modules.items():
        known = f"{name}::" if module == name else f"{name}::tests::"
        passed = sum(it.startswith(f"{module}::") for it in results[0])
        failed = {known + test[len(module) + 2 :]: said for test, said in results[1].items() if test.startswith(f"{module}::")}
        found.append(tell(name, passed, failed, seconds))
    return found


def has_program():
    """Whether dist/ has the program of these sources, whole, and it runs here: what ./quaestor asks of it."""
    if not os.access("dist/quaestor", os.X_OK) or (os.uname().sysname, os.uname().machine) != ("Linux", "x86_64"):
        return False
    try:
        with open("dist/SOURCES", "rb") as it, open("dist/quaestor.sha256", "rb") as sums, open("dist/quaestor", "rb") as program:
            sources, told, found = it.read(), sums.read().split()[0], hashlib.sha256(program.read()).hexdigest().encode()
        of_these = subprocess.run(["sh", "tools/sources.sh"], stdout=subprocess.PIPE).stdout == sources
        return of_these and told == found and subprocess.run(["dist/quaestor", "--version"], stdout=subprocess.DEVNULL, stderr=subprocess.DEVNULL).returncode == 0
    except (OSError, IndexError):
        return False


def test_program(program):
    """This program over each example."""
    begun, passed, failed = time.time(), 0, {}
    for it in sorted(it for it in os.listdir("examples") if it.endswith(".http")):
        with open(f"examples/{it}", "rb") as asked, open(f"examples/{it[:-5]}.reply", "rb") as wanted:
            ran = subprocess.run([program, "pipe", "--clock", "100"], stdin=asked, stdout=subprocess.PIPE)
            if ran.returncode == 0 and ran.stdout == wanted.read():
                passed += 1
            else:
                failed[f"examples/{it}"] = [f"status {ran.returncode}, and not the reply that is wanted"]
    return tell(f"examples, by {program}", passed, failed, time.time() - begun)


def test_examples(room):
    """The program over each example: that of dist/, where it is of these sources and whole, else compiled once."""
    if has_program():
        return test_program("dist/quaestor")
    cases = f"{room}/cases"
    os.makedirs(cases)
    names = sorted(it[: -len(".http")] for it in os.listdir("examples") if it.endswith(".http"))
    for it in names:
        shutil.copyfile(f"examples/{it}.http", f"{cases}/{it}")
        shutil.copyfile(f"examples/{it}.reply", f"{cases}/{it}.stdout")
    said, seconds = rt_try(f"{room}/crates/quaestor", "--steps", STEPS, "--seconds", SECONDS, "--cases", cases, "--", "pipe", "--clock", "100")
    failed, now = {}, []
    for line in said.splitlines():
        found = re.match(r"case=(\S+) ", line)
        if not found:
            now.append(line)
        elif not re.search(r" run=ended status=0 .* output=expected ", line):
            failed[f"examples/{found[1]}.http"] = [*now, line]
        if found:
            now = []
    passed = len(re.findall(r"^case=", said, re.M)) - len(failed)
    if passed + len(failed) != len(names):
        failed["examples: the program did not run over all of them"] = said.splitlines()
    return tell("examples", passed, failed, seconds)


def below(names, crates):
    """The crates that these use, and those that they use in turn."""
    found = set()
    left = list(names)
    while left:
        for it in set(crates.get(left.pop(), [])) - found:
            found.add(it)
            left.append(it)
    return found


def weight(units, crates):
    """About how long these units take: by their own text, and that of all crates below; of one of the kit a guess."""
    parts = [(parts_of(name, crates), places) for name, places in units]
    files = [it[2][place] for it, places in parts for place in places]
    used = {it for part, _ in parts for it in part[3]}
    used |= below(used, crates)
    ours = [f"{at}/{it}" for name in used for at, _, found in os.walk(f"crates/{name}/src") for it in found if it.endswith(".rt")]
    slow = sum(SLOW.get(place, 0) for _, places in units for place in places)
    return slow + sum(len(text_of(it)) for it in files + ours) + KIT_CRATE * sum(it not in crates for it in used)


def share(names, crates):
    """The units of these crates in as many groups as are compiled at the same time, so that each takes about as long. No group has two units of one crate."""
    groups = [[] for _ in range(len(JOINED) if os.cpu_count() >= 4 else 1)]
    units = [it for name in names for it in (units_of(name, crates) if len(groups) > 1 else [(name, tuple(parts_of(name, crates)[2]))])]
    for unit in sorted(units, key=lambda it: -weight([it], crates)):
        free = [it for it in groups if unit[0] not in [name for name, _ in it]]
        min(free, key=lambda it: weight([*it, unit], crates)).append(unit)
    return groups


def main(wanted):
    if not shutil.which("rt"):
        sys.exit("test: the command rt is not on the path")
    crates = listed()
    tested = [it for it in crates if files_with_tests(it)]
    for it in wanted:
        if it not in crates:
            sys.exit(f"test: crates.txt has no crate {it}")
        if it not in tested and it != "quaestor":
            above = [name for name in tested if it in crates[name]]
            sys.exit(f"test: {it} has no tests" + (f"; those of {', '.join(above)} use it" if above else ""))
    with tempfile.TemporaryDirectory(prefix="quaestor-test-") as room:
        for it in ("crates.txt", "HANDLES"):
            shutil.copyfile(it, f"{room}/{it}")
        shutil.copytree("crates", f"{room}/crates", ignore=shutil.ignore_patterns("out", "must-fail"))
        joinable = [] if wanted else [it for it in tested if parts_of(it, crates)]
        alone = [it for it in wanted or tested if it in tested and it not in joinable]
        groups = [join(name, group, crates, room) for name, group in zip(JOINED, share(joinable, crates)) if group]
        counts = []
        with ThreadPoolExecutor(os.cpu_count()) as pool:
            tasks = [pool.submit(test_joined, *it, room, pool.submit) for it in groups]
            if not wanted or "quaestor" in wanted:
                tasks.append(pool.submit(test_examples, room))
            tasks += [pool.submit(test_alone, it, room) for it in alone]
            for it in tasks:
                found = it.result()
                counts += [one if isinstance(one, tuple) else one.result() for one in (found if isinstance(found, list) else [found])]
    passed, failed = (sum(it) for it in zip(*counts))
    print(f"{passed} passed, {failed} failed")
    return int(failed > 0 or passed == 0)


if __name__ == "__main__":
    sys.exit(main(sys.argv[1:]))
