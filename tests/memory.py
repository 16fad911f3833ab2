#!/usr/bin/env python3
"""Refused memory: the built agent where one allocation after another is refused, and under limits of its address space.

    tests/memory.py [rows|serve|limits|played]..
    tests/memory.py --write

rows: literal schedules in which a key is replaced, a login is bound and signed, and a signature waits for consent.
serve: one client that adds, lists, signs and leaves. Both are run once for each allocation, which is refused. The end
is status 5 and what was written a prefix, or all is as without a refusal, or a start that failed is FAILURE. What serve
frees is searched for the key's private field. limits: the same client and a longer list at 40 sizes of the address
space, beginning where the agent comes to listen. Both sockets are gone at the end. played: tests of a world in memory
with one client, of an agent and of a table alone, as the check of their crates builds them, with each allocation refused:
they answer, and end no process. The last line has the numbers of runs, and --write, of all parts, writes it into
generated/MEMORY.md; ends with 1 where something failed.

A library that cc makes here stands before malloc, so the agent must not be linked with AddressSanitizer."""

import collections
import contextlib
import os
import pathlib
import resource
import shutil
import subprocess
import sys
import tempfile

sys.dont_write_bytecode = True

import rig
from frames import Ended, string

sys.path.insert(0, str(rig.TOP))
from model.rows_format2 import EVERY_ROW

MEMORY = 5
HELPER = rig.BUILT / "standin_helper"
ROWS = (
    "a key is replaced in its place",
    "a rule for one user at one host",
    "a grant is for the addition that was asked for",
    "a grant asks the helper",
)
# Refuses the allocation with the number REFUSE, from 1, and writes how many there were and how many freed blocks held
# MARKED into a file of the folder COUNTS at the end, whose name is the process's number.
SHIM = r"""
#define _GNU_SOURCE
#include <dlfcn.h>
#include <errno.h>
#include <fcntl.h>
#include <malloc.h>
#include <stdio.h>
#include <stdlib.h>
#include <string.h>
#include <unistd.h>

static void *(*real_malloc)(size_t), *(*real_calloc)(size_t, size_t), *(*real_realloc)(void *, size_t);
static int (*real_memalign)(void **, size_t, size_t);
static void (*real_free)(void *);
static long made, refused, marks;
static char mark[64];
static size_t mark_length;

__attribute__((constructor)) static void begin(void) {
    real_malloc = dlsym(RTLD_NEXT, "malloc");
    real_calloc = dlsym(RTLD_NEXT, "calloc");
    real_realloc = dlsym(RTLD_NEXT, "realloc");
    real_memalign = dlsym(RTLD_NEXT, "posix_memalign");
    real_free = dlsym(RTLD_NEXT, "free");
    const char *number = getenv("REFUSE"), *text = getenv("MARKED");
    refused = number ? atol(number) : 0;
    mark_length = text ? strlen(text) : 0;
    if (mark_length > sizeof mark) mark_length = sizeof mark;
    memcpy(mark, text ? text : "", mark_length);
    unsetenv("LD_PRELOAD");
    made = 0;
}

__attribute__((destructor)) static void tell(void) {
    char text[64], path[256];
    int length = snprintf(text, sizeof text, "%ld %ld\n", made, marks);
    snprintf(path, sizeof path, "%s/%d", getenv("COUNTS"), (int)getpid());
    int file = open(path, O_WRONLY | O_CREAT | O_TRUNC, 0600);
    if (write(file, text, length) != length) _exit(99);
}

static int may(void) {
    if (!real_free || __atomic_add_fetch(&made, 1, __ATOMIC_SEQ_CST) != refused) return 1;
    errno = ENOMEM;
    return 0;
}

static void search(void *block) {
    if (block && mark_length && memmem(block, malloc_usable_size(block), mark, mark_length)) marks++;
}

void *malloc(size_t size) {
    if (!real_malloc) real_malloc = dlsym(RTLD_NEXT, "malloc");
    return may() ? real_malloc(size) : NULL;
}

void *calloc(size_t count, size_t size) {
    if (!real_calloc) real_calloc = dlsym(RTLD_NEXT, "calloc");
    return may() ? real_calloc(count, size) : NULL;
}

void *realloc(void *block, size_t size) {
    if (!real_realloc) real_realloc = dlsym(RTLD_NEXT, "realloc");
    if (!may()) return NULL;
    search(block);
    return real_realloc(block, size);
}

int posix_memalign(void **block, size_t alignment, size_t size) {
    if (!real_memalign) real_memalign = dlsym(RTLD_NEXT, "posix_memalign");
    return may() ? real_memalign(block, alignment, size) : ENOMEM;
}

void free(void *block) {
    if (!real_free) real_free = dlsym(RTLD_NEXT, "free");
    search(block);
    real_free(block);
}
"""
MARK = b"no block that is freed holds it!"  # the private field of the key that serve's client adds


def shim(folder):
    """The library that refuses, made anew."""
    if not shutil.which("cc"):
        raise rig.Skip("no cc: apt-get install gcc libc6-dev")
    (folder / "refuse.c").write_text(SHIM)
    rig.run(["cc", "-O1", "-shared", "-fPIC", "-o", folder / "refuse.so", folder / "refuse.c", "-ldl"])
    return folder / "refuse.so"


def refusing(folder, number, mark):
    more = dict(LD_PRELOAD=str(folder / "refuse.so"), REFUSE=str(number), COUNTS=str(folder))
    return dict(os.environ, MARKED=mark, **more)


def counted(folder, pid):
    """How many allocations a process asked for, and how many freed blocks held the mark."""
    made, marks = (folder / str(pid)).read_text().split()
    (folder / str(pid)).unlink()
    return int(made), int(marks)


# Rows.


def run_row(program, folder, row, number):
    words = [str(program), "replay"] + ([] if row.life is None else ["-t", str(row.life)])
    words += [] if row.limit is None else ["--confirm-limit", str(row.limit)]
    pipes = dict(stdin=subprocess.PIPE, stdout=subprocess.PIPE, stderr=subprocess.DEVNULL)
    with subprocess.Popen(words, env=refusing(folder, number, ""), **pipes) as process:
        output, _ = process.communicate(row.schedule)
    return output, process.returncode, counted(folder, process.pid)[0]


def try_row(program, folder, row, tally):
    output, status, total = run_row(program, folder, row, 0)
    assert (output, status) == (row.printed, row.status), f"{row.name} prints something else"
    assert total > 10, "the library that refuses stands before nothing"
    for number in range(1, total + 1):
        output, status, _ = run_row(program, folder, row, number)
        whole = (output, status) == (row.printed, row.status)
        is_prefix = row.printed.startswith(output)
        assert whole or (status == MEMORY and is_prefix), f"{row.name}, {number}: status {status}"
        tally["rows: " + ("as without" if whole else "status 5")] += 1


# One client of the agent that serves.

FIELDS = string(b"keyed-sha256@example.com") + string(b"t" * 32)
ADDS = bytes([rig.ADD]) + FIELDS + string(MARK) + string(b"one")
LISTS = bytes([rig.LIST])
SIGNS = bytes([rig.SIGN]) + string(FIELDS) + string(b"message") + bytes(4)
OTHER = rig.plain_key(b"o" * 32, b"c" * 131000)
ADDS_MORE = bytes([rig.ADD]) + OTHER[0] + OTHER[1]
VISIT = [ADDS, LISTS, SIGNS, LISTS]
LONG_VISIT = [ADDS, ADDS_MORE, LISTS, SIGNS, LISTS]


def visit(path, bodies):
    """What a client gets for its requests, one after another, as long as it is served."""
    got = []
    with contextlib.suppress(Ended, OSError), rig.Peer(rig.connected(path)) as peer:
        for body in bodies:
            got.append(peer.ask(body[0], body[1:]))
    return got


def serve(program, folder, bodies, environment, limit=None):
    """The replies, the status, whether a socket is left, and the number of the process."""
    path = folder / "s"
    words = [str(program), "serve", "-a", str(path), "--until-idle", "--helper", str(HELPER)]
    quiet = dict(stdin=subprocess.DEVNULL, stdout=subprocess.DEVNULL, stderr=subprocess.DEVNULL)
    with subprocess.Popen(words, env=environment, preexec_fn=limit, **quiet) as process:
        rig.until(lambda: rig.serves(path) or process.poll() is not None, 60, what="the socket")
        got = visit(path, bodies)
        status = process.wait(60)
    return got, status, path.exists(), process.pid


def judge(what, got, whole, status, is_left):
    """How it ended: status 5, as without a refusal, or as that with a start that failed."""
    assert not is_left, f"{what}: a socket is left"
    refused = bytes([rig.FAILURE])
    alike = [seen == told or (told[0] == rig.SIGNATURE and seen == refused) for seen, told in zip(got, whole)]
    assert all(alike), f"{what}: something else is written"
    if status == 0:
        assert len(got) == len(whole), f"{what}: the client was left, and the agent ended well"
        return "as without" if got == whole else "a start that failed"
    assert status == MEMORY, f"{what}: status {status}"
    return "status 5"


def try_serve(program, folder, tally):
    whole, status, is_left, pid = serve(program, folder, VISIT, refusing(folder, 0, MARK.decode()))
    total, marks = counted(folder, pid)
    assert status == 0 and not is_left and whole[2][0] == rig.SIGNATURE, (status, whole)
    assert marks == 0, f"{marks} freed blocks hold a secret"
    for number in range(1, total + 1):
        got, *ended, pid = serve(program, folder, VISIT, refusing(folder, number, MARK.decode()))
        tally["serve: " + judge(number, got, whole, *ended)] += 1
        _, marks = counted(folder, pid)
        assert marks == 0, f"{number}: {marks} freed blocks hold a secret"


# Limits of the address space.


def limited(size):
    """What gives a process that is to be the agent an address space of so many bytes."""
    return lambda: resource.setrlimit(resource.RLIMIT_AS, (size, size))


def listens(program, folder, size):
    """Whether the agent comes to listen, the library before malloc with it: it has a stack, and memory for its socket."""
    path = folder / "l"
    words = [str(program), "serve", "-a", str(path), "--helper", str(HELPER)]
    more = dict(env=refusing(folder, 0, MARK.decode()), preexec_fn=limited(size))
    quiet = dict(stdin=subprocess.DEVNULL, stdout=subprocess.DEVNULL, stderr=subprocess.DEVNULL)
    with subprocess.Popen(words, **more, **quiet) as process:
        rig.until(lambda: rig.serves(path) or process.poll() is not None, 60, what="the socket")
        is_there = process.poll() is None and "refuse.so" in pathlib.Path(f"/proc/{process.pid}/maps").read_text()
        process.kill()
    path.unlink(missing_ok=True)
    return is_there


def least_size(program, folder):
    """The least size of the address space, in pages, at which the agent listens."""
    low, high = 0, 1 << 18
    assert listens(program, folder, high << 12), "it doesn't listen in 1 GB"
    while high - low > 1:
        middle = (low + high) // 2
        low, high = (low, middle) if listens(program, folder, middle << 12) else (middle, high)
    return high


def try_limits(program, folder, tally):
    """Where the limit leaves the main thread no stack, the system ends it: no program can tell. So the first size has
    some pages more than the least."""
    environment = refusing(folder, 0, MARK.decode())
    whole, status, is_left, _ = serve(program, folder, LONG_VISIT, environment)
    assert status == 0 and not is_left, status
    least = least_size(program, folder)
    for place in range(1, 41):
        size = least + 8 * place << 12
        got, *ended, pid = serve(program, folder, LONG_VISIT, environment, limited(size))
        tally["limits: " + judge(f"{size} bytes", got, whole, *ended)] += 1
        _, marks = counted(folder, pid)
        assert marks == 0, f"{size} bytes: {marks} freed blocks hold a secret"
    assert tally["limits: status 5"], "each size was enough"
    assert tally["limits: as without"], "no size was enough"


# Worlds, agents and tables in memory.

PLAYED = {
    "hub_tests": "failing_tests::a_refused_allocation_ends_the_loop_or_nothing",
    "core_tests": "memory_tests::a_refused_step_leaves_a_new_agent",
    "part_tests": "identities::a_refused_addition_leaves_the_table_as_it_was",
}


def played(crate):
    """The program of a crate's tests, which a check of the crate leaves."""
    program = rig.TOP / "crates" / crate / f"out/{crate}_tests"
    if not program.exists():
        rig.run([os.environ.get("RT", "rt"), "test"], cwd=program.parents[1], stdin=subprocess.DEVNULL, timeout=3600)
    return program


def run_played(program, test, folder, number):
    pipes = dict(stdin=subprocess.DEVNULL, stdout=subprocess.PIPE, stderr=subprocess.STDOUT)
    with subprocess.Popen([program, test], env=refusing(folder, number, ""), **pipes) as process:
        said, _ = process.communicate(timeout=60)
    assert process.returncode == 0, f"{test}, {number}: status {process.returncode}: {said[-2000:]}"
    return counted(folder, process.pid)[0]


def try_played(crate, test, folder, tally):
    """Refuses one allocation of a test after another: it answers, and ends no process."""
    program = played(crate)
    total = run_played(program, test, folder, 0)
    assert total > 10, "the library that refuses stands before nothing"
    for number in range(1, total + 1):
        run_played(program, test, folder, number)
        tally[f"played: {crate}"] += 1


def write(ends):
    """Puts how often each end came between their marks in generated/MEMORY.md."""
    place = rig.TOP / "generated/MEMORY.md"
    before, begin, rest = place.read_text().partition("<!-- runs, by tests/memory.py --write -->\n")
    assert begin, "generated/MEMORY.md has no mark for the runs"
    _, end, after = rest.partition("<!-- end of runs -->")
    place.write_text(before + begin + "".join(f"- {line}\n" for line in ends) + end + after)


def main(words):
    parts = [word for word in words if word != "--write"]
    tally = collections.Counter()
    try:
        program = rig.there(rig.agent_program())
        rig.built("standin_helper")
        with tempfile.TemporaryDirectory(prefix="mk-") as name:
            folder = pathlib.Path(name)
            shim(folder)
            if not parts or "rows" in parts:
                for row in (row for row in EVERY_ROW if row.name in ROWS):
                    try_row(program, folder, row, tally)
            if not parts or "serve" in parts:
                try_serve(program, folder, tally)
            if not parts or "limits" in parts:
                try_limits(program, folder, tally)
            for crate, test in PLAYED.items():
                if not parts or "played" in parts:
                    try_played(crate, test, folder, tally)
    except rig.Skip as reason:
        print(f"memory: not run: {reason}")
        return 1
    except AssertionError as fault:
        print(f"memory: failed: {fault}")
        return 1
    ends = [f"{name} {count}" for name, count in tally.items()]
    if "--write" in words and not parts:
        write(ends)
    print(f"memory: {', '.join(ends)}")
    return 0


if __name__ == "__main__":
    sys.exit(main(sys.argv[1:]))
