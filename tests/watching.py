#!/usr/bin/env python3
"""Looks at running programs that link the library of safe points, with readelf and gdb: watching.py LIBSAFEPOINT

`tests/watched.c` is the program. It takes less than a minute on a quiet machine.

| what | how |
|---|---|
| the probes | readelf lists each with -DSP_USDT, and none without: then the code is that without any line of a probe |
| SP_USDT=1 | the archive that an install makes has them |
| their arguments | gdb stops at each, and its values are those that the program prints |
| `safepoint` of gdb | for each way in which a stop doesn't end: the states, what is open, and who is awaited, and why |
| the same | of a program that gdb attaches to, running or stopped by a signal, and of a core dump |
| a host with its own waits | what is shown by the address of a party |
| loading by itself | gdb loads the script that stands beside a shared library |
| commands of docs/start/EMBEDDING.md | those of readelf and gdb, on the same program |

What can't run for want of a tool is skipped by name. The last line is `N passed, N failed, N skipped`; the status is 0
where none failed.
"""
import contextlib
import functools
import os
import pathlib
import re
import shlex
import shutil
import signal
import subprocess
import sys
import tempfile
import time

from tally import Tally, c_compiler
from toolchain import allocator

TESTS = pathlib.Path(__file__).resolve().parent
ROOT = TESTS.parent
sys.path.insert(0, str(ROOT / "install"))
CRATE = ROOT / "crates" / "safepoint"
WAITS = sorted((CRATE / "waits").glob("*.c"))
SCRIPT = ROOT / "install" / "safepoint-gdb.py"
PAGE = ROOT / "docs" / "start" / "EMBEDDING.md"
SECTION = "Watching a running system"
INSTALLED = "/usr/local/share/safepoint/safepoint-gdb.py"
SECONDS = 120
FLAGS = ("-std=gnu11", "-O2", "-Wall", "-Wextra", "-Werror", "-I", CRATE / "include")
USDT = "-DSP_USDT"
# How many arguments each probe has.
PROBES = {"request__begin": 1, "request__end": 2, "stop__begin": 2, "stop__end": 2, "callback__begin": 3,
          "callback__end": 3, "wait__begin": 2, "wait__end": 1}
PROBE = re.compile(r"^ *PROBE\((\w+), .*\);\n", re.MULTILINE)  # a line of one
FIRST_SLEEP = 500_000  # nanoseconds, at most
TRIES, CHANGING = 3, "not readable, since a call is just changing them"
STATES = {"polls": "in Java", "native": "in native code", "blocked": "blocked", "never": "in Java", "vm": "in the VM",
          "lingers": "in Java"}
# By HOW of watched.c: who isn't as in STATES; what is open; how many wait; who is awaited, and why.
NO_POLL, NO_STOP = "it hasn't polled", "it hasn't called sp_stop"
WAYS = {
    "stuck": ({}, ["handshake 1 of 4 targets, 1 not done"], "0 requests", {"never": NO_POLL}),
    "four": ({}, [f"handshake {it} of 4 targets, 1 not done" for it in range(1, 5)], "2 requests", {"never": NO_POLL}),
    "census": ({"polls": "stopped", "lingers": "at a poll"}, ["census 1, not operated"], "0 requests",
               {"never": NO_POLL, "vm": "it hasn't left the VM", "lingers": NO_STOP}),
    "held": ({}, ["handshake 1 of 1 target, 1 not done"], "0 requests", {"coordinator": "hasn't returned"}),
    "serving": ({"polls": "serving"}, ["handshake 1 of 1 target, 1 not done"], "0 requests",
                {"polls": "its callback hasn't returned"}),
    "lingers": ({"lingers": "at a poll"}, ["handshake 1 of 1 target, 1 not done"], "0 requests", {"lingers": NO_STOP}),
}
LISTS = re.compile(r"^  name (\d+), place (\d+)(?:, armed with \d+)?, ([\w ]+): thread \d+ \(LWP (\d+)\)", re.MULTILINE)
AWAITED = re.compile(r"^  awaited: (?:name (\d+), place \d+, armed with \d+: |.*operation 1, )(.*)\n"
                     r"    thread \d+ \(LWP (\d+)\) in (.*)$", re.MULTILINE)


class Tests(Tally):
    def __init__(self, library, folder):
        super().__init__()
        self.library, self.folder = library, folder

    def holds(self, what, is_so, fault="it isn't so"):
        return self.judge(what, () if is_so else fault)

    def lacks_gdb(self):
        """Why gdb can't run a program here; nothing where it can."""
        if not shutil.which("gdb"):
            return "there is no gdb"
        said = gdb("-ex", "python print('has python')", "-ex", "run", "--args", self.built())
        if "has python" not in said:
            return "gdb has no Python"
        return None if "exited" in said else f"gdb can't run a program here: {said[-200:]!r}"

    @functools.cache
    def lack_of_probes(self):
        """Why no program with probes can be built here; nothing where one can."""
        source = self.folder / "sdt.c"
        source.write_text("#include <sys/sdt.h>\n")
        ran = subprocess.run([c_compiler(), "-fsyntax-only", source], capture_output=True)
        return "there is no sys/sdt.h (systemtap-sdt-dev)" if ran.returncode else None

    @functools.cache
    def built(self, *words):
        """The program, built with these words."""
        program = self.folder / "".join(("watched", *words))
        libraries = [self.library, allocator(), "-lpthread"]
        command = [c_compiler(), *FLAGS, "-g", *words, "-o", program, TESTS / "watched.c", *WAITS, *libraries]
        subprocess.run(command, check=True)
        return program


def gdb(*words):
    """What gdb says, without the user's settings. Where a call was just changing the requests, it is asked again."""
    command = ["gdb", "-q", "-nx", "-batch", *map(str, words)]
    how = {"stdin": subprocess.DEVNULL, "stdout": subprocess.PIPE, "stderr": subprocess.STDOUT, "timeout": SECONDS}
    for _ in range(TRIES):
        ran = subprocess.run(command, env={**os.environ, "DEBUGINFOD_URLS": ""}, **how)
        said = ran.stdout.decode(errors="replace")
        if CHANGING not in said:
            break
    return said


def asks(*commands):
    """The words by which gdb makes these commands."""
    return [word for it in commands for word in ("-ex", it)]


def named(text):
    """What the program printed of its threads, by what each does: name, place, thread of the machine."""
    found = re.findall(r"^thread (\d+) (\d+) (\d+) (\w+)$", text, re.MULTILINE)
    return {what: (int(name), int(place), int(thread)) for name, place, thread, what in found}


# --- probes ---

def compiled(folder, name, text, *words):
    """The code of an object that is compiled of this text."""
    source, made, code = (folder / f"{name}{it}" for it in (".c", ".o", ".bin"))
    source.write_text(text)
    subprocess.run([c_compiler(), *FLAGS, "-I", CRATE / "waits", *words, "-c", source, "-o", made], check=True)
    subprocess.run(["objcopy", "-O", "binary", "-j", ".text", made, code], check=True)
    return code.read_bytes()


def without_probes(tests):
    """Without -DSP_USDT the probes are no code."""
    texts = {it.stem: it.read_text() for it in WAITS}
    bare = {name: PROBE.sub("", text) for name, text in texts.items()}
    found = {name for text in texts.values() for name in PROBE.findall(text)}
    tests.holds("each probe has a line", found == set(PROBES), f"{sorted(found ^ set(PROBES))}")
    if tests.has("objcopy", *(f"no code of probes{it}" for it in ("", " with -DSP_PTHREAD"))):
        for words in ((), ("-DSP_PTHREAD",)):
            differ = [it for it in texts if texts[it] != bare[it] and
                      compiled(tests.folder, it, texts[it], *words) != compiled(tests.folder, it, bare[it], *words)]
            tests.holds(" ".join(("no code of probes", *words)), not differ, f"{differ}")


def archive(folder, usdt):
    """The archive that an install makes of the waits."""
    from libraries import waits_archive
    (folder / usdt).mkdir()
    os.environ["SP_USDT"] = usdt
    return waits_archive(folder / usdt)


LISTINGS = ("the probes of a program", "no probes of a program without them", "the probes of an install with SP_USDT=1",
            "no probes of an install without it")


def listed_probes(tests):
    """readelf lists each probe, where the program or the archive was built with them."""
    if not tests.has("readelf", *LISTINGS):
        return
    files = (tests.built(USDT), tests.built(), archive(tests.folder, "1"), archive(tests.folder, "0"))
    for what, file, wanted in zip(LISTINGS, files, 2 * (sorted(PROBES), [])):
        notes = subprocess.run(["readelf", "-n", file], capture_output=True, text=True, check=True).stdout
        found = sorted(re.findall(r"Provider: safepoint\n\s+Name: (\w+)", notes))
        tests.holds(what, found == wanted, f"{found}")


def stopping(tests):
    """A script for gdb that prints the arguments at each probe."""
    lines = ["set breakpoint pending off", "set pagination off"]
    for probe, count in PROBES.items():
        arguments = "".join(f", (long)$_probe_arg{it}" for it in range(count))
        says = f'printf "{probe}{" %ld" * count} of %d\\n"{arguments}, $_probe_argc'
        lines += [f"break -probe-stap safepoint:{probe}", "commands", "silent", says, "continue", "end"]
    script = tests.folder / "probes.gdb"
    script.write_text("\n".join([*lines, "run shake", ""]))
    return script


def probe_lines(text):
    """What gdb printed at each probe: its arguments, of each time."""
    found = {it: [] for it in PROBES}
    for probe, values, count in re.findall(r"^(\w+__\w+) ([-\d ]*) of (\d+)$", text, re.MULTILINE):
        found[probe].append((*map(int, values.split()),) if len(values.split()) == int(count) else ())
    return found


def arguments(tests):
    """At each probe gdb reads what the program prints."""
    said = gdb("-x", stopping(tests), tests.built(USDT))
    found, threads = probe_lines(said), named(said)
    coordinator = int(re.search(r"^coordinator \d+ (0x[0-9a-f]+)$", said, re.MULTILINE)[1], 16)
    closed = int(re.search(r"^closed (\d+)$", said, re.MULTILINE)[1])
    stops = [(int(name), int(place)) for name, place in re.findall(r"^stop (\d+) (\d+)$", said, re.MULTILINE)]
    calls = re.findall(r"^callback (\d+) (\d+) (\d+)$", said, re.MULTILINE)
    calls = sorted(tuple(map(int, it)) for it in calls)
    wanted = {"request__begin": [(coordinator,)], "request__end": [(coordinator, closed)], "stop__begin": stops,
              "stop__end": stops, "callback__begin": calls, "callback__end": calls}
    for probe, values in wanted.items():
        tests.holds(f"{probe} in gdb", sorted(found[probe]) == values != [], f"{found[probe]}, wanted {values}\n{said}")
    tests.holds("three callbacks, one of the thread that polls", (closed, *threads["polls"][:2]) in calls, f"{calls}")
    sleeps, wakes = found["wait__begin"], found["wait__end"]
    tests.holds("wait__begin in gdb", (1, FIRST_SLEEP) in sleeps, f"{sleeps}")
    is_paired = sorted(it[:1] for it in sleeps) == sorted(wakes)
    tests.holds("wait__end in gdb", is_paired, f"{sleeps}, {wakes}")


def probes(tests, lack):
    without_probes(tests)
    in_gdb, lacks_probes = [f"{it} in gdb" for it in PROBES], tests.lack_of_probes()
    for name in LISTINGS if lacks_probes else ():
        tests.skip(name, lacks_probes)
    for name in in_gdb if lacks_probes or lack else ():
        tests.skip(name, lacks_probes or lack)
    if not lacks_probes:
        listed_probes(tests)
    if not lacks_probes and not lack:
        arguments(tests)


# --- the command of gdb ---

def threads_of(printed):
    """What `named` finds, and the coordinator's thread of the machine."""
    coordinator = int(re.search(r"^coordinator (\d+) ", printed, re.MULTILINE)[1])
    return {**named(printed), "coordinator": ("", None, coordinator)}


def judge_system(tests, what, printed, said, how=None):
    """What `safepoint system` said is what the program that printed this is in."""
    differ, opened, waiting, awaited = WAYS[how or what]
    threads, states = threads_of(printed), {**STATES, **differ}
    found = {int(name): (int(place), state, int(thread)) for name, place, state, thread in LISTS.findall(said)}
    wanted = {threads[it][0]: (threads[it][1], state, threads[it][2]) for it, state in states.items()}
    tests.holds(f"{what}: the threads", found == wanted, f"{found}, wanted {wanted}\n{said}")
    is_asked = re.findall(r"^  open: (.*)$", said, re.MULTILINE) == opened and f"  waiting: {waiting}\n" in said
    tests.holds(f"{what}: the requests", is_asked, said)
    judge_awaited(tests, what, awaited, threads, said)


def judge_awaited(tests, what, awaited, threads, said):
    found = {(name, why, int(thread)) for name, why, thread, _ in AWAITED.findall(said)}
    wanted = {(str(threads[it][0]), why, threads[it][2]) for it, why in awaited.items()}
    tests.holds(f"{what}: whom it awaits", found == wanted, f"{found}, wanted {wanted}\n{said}")
    is_in = all(re.search(r"\b(live|sp_stop|sp_drive)\b", frames) for *_, frames in AWAITED.findall(said))
    tests.holds(f"{what}: in which functions", is_in, said)


def under_gdb(tests):
    """Each way, in a program that gdb runs up to a breakpoint; of one a core is kept. Its path."""
    core, program = tests.folder / "core", tests.built()
    for how in WAYS:
        kept = asks(f"generate-core-file {core}") if how == "stuck" else ()
        shown = asks("break look_now", f"run {how}", f"source {SCRIPT}", "safepoint system")
        said = gdb(*shown, *asks("safepoint awaited &coordinator"), *kept, *asks("kill"), program)
        whole, _, rest = said.partition("\nsystem ")[2].partition("\nsystem ")
        judge_system(tests, how, said, whole)
        judge_awaited(tests, f"{how}, by a party", WAYS[how][3], threads_of(said), rest)
        if kept:
            core.with_suffix(".said").write_text(said)
    return core


def calling(name, number):
    """What gdb evaluates to call a function with a party of the program. Its declaration isn't known to gdb."""
    return f"((long(*)(void*)){name})(&all[{number}].party)"


def states(tests):
    """The names, the places and the states are those of the library's calls."""
    numbers = ("in Java", "in the VM", "at a poll", "in native code", "blocked", "serving")
    calls = [f'printf "state %ld %ld %ld\\n", {calling("sp_name", it)}, {calling("sp_place", it)}, '
             f'{calling("sp_state", it)}' for it in range(len(STATES))]
    for how in ("census", "serving"):
        begin = ("break look_now", f"run {how}", "set scheduler-locking on", f"source {SCRIPT}", "safepoint parties")
        said = gdb(*asks(*begin, *calls, "kill"), tests.built())
        told = re.findall(r"^state (\d+) (\d+) (\d+)$", said, re.MULTILINE)
        told = [(name, place, numbers[int(it)]) for name, place, it in told]
        shown = [(name, place, state.replace("stopped", "at a poll")) for name, place, state, _ in LISTS.findall(said)]
        tests.holds(f"{how}: the states are those of sp_state", shown == told != [], f"{shown}, {told}\n{said}")


TAKEN = """python slot = Record("system", Party.given(int(gdb.parse_and_eval("(long)&coordinator"))).system).desk
python gdb.selected_inferior().write_memory(slot, bytes(16))""".splitlines()


def changing(tests):
    """While a call has the desk, which its lock's slot tells, the rest is shown without it."""
    begin = asks("break look_now", "run stuck", f"source {SCRIPT}")
    said = gdb(*begin, *asks(*TAKEN, "safepoint system", "kill"), tests.built())
    tests.holds("while a call changes the requests", CHANGING in said and len(LISTS.findall(said)) == len(STATES), said)
    judge_awaited(tests, "while a call changes the requests", WAYS["stuck"][3], threads_of(said), said)


@contextlib.contextmanager
def running(program, how):
    """A program that stopped getting on, with what it printed."""
    log = pathlib.Path(f"{program}.log")
    with open(log, "w") as output:
        it = subprocess.Popen([program, how], stdout=output)
    try:
        end = time.monotonic() + SECONDS
        while "\nstuck\n" not in log.read_text() and time.monotonic() < end:
            time.sleep(0.02)
        yield it.pid, log.read_text()
    finally:
        it.kill()
        it.wait()


def attached(tests):
    """A program that gdb attaches to: one that runs, and one that a signal stopped."""
    for what, stops in (("attached", False), ("attached to a stopped program", True)):
        with running(tests.built(), "stuck") as (pid, printed):
            if stops:
                os.kill(pid, signal.SIGSTOP)
            said = gdb("-p", pid, "-x", SCRIPT, *asks("safepoint system"))
        judge_system(tests, what, printed, said, "stuck")


def of_core(tests, core):
    said = gdb("-x", SCRIPT, *asks("safepoint system"), tests.built(), core)
    judge_system(tests, "a core dump", core.with_suffix(".said").read_text(), said, "stuck")


def refusals(tests):
    """What the command says where there is nothing to show."""
    program, bare = tests.built(), tests.folder / "bare"
    none = gdb("-x", SCRIPT, *asks("safepoint system"), program)
    tests.holds("without a process", "safepoint: there is no process and no core dump" in none, none)
    ended = gdb(*asks("break exit", "run shake", f"source {SCRIPT}", "safepoint system", "kill"), program)
    is_bare = "0 threads, 8 places" in ended and "  awaited: nobody" in ended and not LISTS.findall(ended)
    tests.holds("and none is listed that is gone", "listed parties that are gone" not in ended, ended)
    tests.holds("after all threads have exited", is_bare, ended)
    typed = ("safepoint awaited &ends", "safepoint")
    wrong = gdb(*asks("break look_now", "run stuck", f"source {SCRIPT}", *typed, "kill"), program)
    tests.holds("the address of no party", "safepoint: no party is made at 0x" in wrong, wrong)
    tests.holds("without a word", "safepoint system|parties|awaited [ADDRESS OF A PARTY]" in wrong, wrong)
    if tests.has("strip", "a stripped program"):
        subprocess.run(["strip", "-o", bare, program], check=True)
        with running(bare, "stuck") as (pid, _):
            said = gdb("-p", pid, "-x", SCRIPT, *asks("safepoint system"))
        tests.holds("a stripped program", "safepoint: nothing lists parties" in said, said)


def unlisted(tests):
    """A program whose waits list nothing, as those of a host's own: by a party there is what the library knows."""
    what = "a host with its own waits"
    if not tests.has("objcopy", what):
        return
    program = tests.folder / "unlisted"
    subprocess.run(["objcopy", "--strip-debug", "--strip-symbol=sp_listed", tests.built(), program], check=True)
    typed = ("break look_now", "run stuck", f"source {SCRIPT}", "safepoint system &coordinator", "kill")
    said = gdb(*asks(*typed), program)
    wanted = [f"  name {it}, place {it - 1}, its party isn't listed" for it in (1, 2, 3, 5, 6)]
    wanted += ["  name 4, place 3, armed with 1, its party isn't listed",
               "  open: handshake 1 of 4 targets, 1 not done",
               "  awaited: name 4, place 3, armed with 1: its party isn't listed"]
    lines = said.splitlines()
    tests.holds(what, all(it in lines for it in wanted), f"wanted {wanted}\n{said}")


def by_itself(tests):
    """gdb loads the script beside a shared library of the waits and the calls."""
    shared, program = tests.folder / "libsafepoint.so.1", tests.folder / "shared"
    whole = ["-Wl,--whole-archive", tests.library, "-Wl,--no-whole-archive", allocator()]
    subprocess.run([c_compiler(), *FLAGS, "-fPIC", "-shared", "-o", shared, *WAITS, *whole, "-lpthread"], check=True)
    words = [c_compiler(), *FLAGS, "-g", "-o", program, TESTS / "watched.c", shared, f"-Wl,-rpath,{tests.folder}"]
    subprocess.run([*words, "-lpthread"], check=True)
    shutil.copy(SCRIPT, f"{shared}-gdb.py")
    safe = ("-iex", f"add-auto-load-safe-path {tests.folder}")
    said = gdb(*safe, *asks("break look_now", "run stuck", "safepoint system", "kill"), program)
    judge_system(tests, "beside a shared library", said, said, "stuck")


# What the commands of the page show, each by a word of it.
PAGE_SHOWS = {"readelf": "callback__begin", "info probes": "callback__begin", "probe-stap": "$1 = 1",
              "safepoint system": "awaited: name 4", "safepoint awaited": "awaited: name 4"}


def page_commands():
    """The commands of the page's section that readelf and gdb make."""
    section = PAGE.read_text().partition(f"## {SECTION}\n")[2].partition("\n## ")[0]
    return [it.strip() for it in re.findall(r"^    ((?:readelf|gdb) .*?)(?:  +#.*)?$", section, re.MULTILINE)]


def of_page(tests, core):
    """What the page tells to type ends well, and shows what it says. The core dump is of a program without probes."""
    commands = page_commands()
    tests.holds("the page has commands", len(commands) >= len(PAGE_SHOWS), f"{commands}")
    with running(tests.built(), "stuck") as (pid, _):
        for command in commands:
            words = (USDT,) if INSTALLED not in command else ()
            if words and tests.lack_of_probes():
                tests.skip(f"the page: {command}", tests.lack_of_probes())
            elif tests.has(command.split()[0], f"the page: {command}"):
                judge_command(tests, command, {"PID": str(pid), "core": core, "./host": tests.built(*words)})


def judge_command(tests, command, meant):
    """A command of the page, with these files and this process: it ends with status 0, and shows what it must."""
    meant = {**meant, INSTALLED: SCRIPT, "run": "run shake"}
    typed = [meant.get(it, it) for it in shlex.split(command)]
    unset = ["-nx"] if typed[0] == "gdb" else []
    how = {"capture_output": True, "text": True, "errors": "replace", "timeout": SECONDS}
    ran = subprocess.run([typed[0], *unset, *typed[1:]], **how)
    wanted = next(it for name, it in PAGE_SHOWS.items() if name in command)
    said = f"{ran.returncode}, {ran.stdout[-800:]}, {ran.stderr[-800:]}"
    tests.holds(f"the page: {command}", ran.returncode == 0 and wanted in ran.stdout, said)


def main(words):
    if len(words) != 1:
        sys.exit("watching.py LIBSAFEPOINT")
    with tempfile.TemporaryDirectory() as folder:
        tests = Tests(pathlib.Path(words[0]).resolve(), pathlib.Path(folder))
        if not tests.has(c_compiler(), "the probes", "the command of gdb"):
            return tests.end()
        lack = tests.lacks_gdb()
        probes(tests, lack)
        if lack:
            tests.skip("the command of gdb", lack)
            return tests.end()
        core = under_gdb(tests)
        for part in (states, changing, attached, refusals, unlisted, by_itself):
            part(tests)
        of_core(tests, core)
        of_page(tests, core)
        return tests.end()


if __name__ == "__main__":
    sys.exit(main(sys.argv[1:]))
