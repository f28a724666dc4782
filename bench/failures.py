#!/usr/bin/env python3
"""Runs the program again and again, and lets another call fail each time: memory is refused, a read or a write fails.

usage: failures.py PROGRAM [CALLS]

Each row is a run: a script with a hold and a watch, `make`, the script that it makes, and, for threads alone, one of 64
routers. In turn the first, second, third .. call of a kind fails, until a run ends before its call comes, or CALLS of a kind
were tried (all, if none is given):

memory     an allocation is refused
exhausted  an allocation is refused, and all behind it
read       a read of standard input fails, where each moves at most 32 bytes
write      a write to standard output fails, where each moves at most 32 bytes
thread     a thread can't be started

A run ends as it should where its status tells the failure (5, 3 or 4; none tells a thread or a piece) and it has written a
beginning of the row's output; or where status and output are as if nothing had failed: then the failure was absorbed. A
line is printed for each row and kind with the counts of both, and one for each run that ends otherwise. Then come the
devices that a user meets: a closed input, a closed output, a full device, a folder as input, a reader that goes away.

The calls are made to fail by a library of C that is loaded before the C library. It is written to a temporary folder and
built by `cc`. Only calls of the program itself count: those that the C library makes for itself, at its start and for
threads, are told apart by the address from which they come. With threads the calls come in another order each time.

This is for developers, and no part of the gate. The status is 1 where a run ends otherwise than it should.
"""

import collections
import os
import pathlib
import subprocess
import sys
import tempfile

import scripts
from scripts import octets, tlv

PATIENCE = 30
KINDS = {"memory": 5, "exhausted": 5, "read": 3, "write": 4, "thread": None}

LIBRARY = r"""
#define _GNU_SOURCE
#include <dlfcn.h>
#include <errno.h>
#include <link.h>
#include <pthread.h>
#include <stdlib.h>
#include <string.h>
#include <sys/syscall.h>
#include <unistd.h>

extern void *__libc_malloc(size_t), *__libc_calloc(size_t, size_t), *__libc_realloc(void *, size_t);
extern void *__libc_memalign(size_t, size_t);

static enum { NONE, MEMORY, EXHAUSTED, READ, WRITE, THREAD } kind;
enum { MOST_MOVED = 32 };
static long wanted, calls;
static int told;
static uintptr_t low, high;

static int first_object(struct dl_phdr_info *object, size_t size, void *unused) {
    (void)size, (void)unused;
    low = UINTPTR_MAX;
    for (int at = 0; at < object->dlpi_phnum; at++) {
        if (object->dlpi_phdr[at].p_type != PT_LOAD) continue;
        uintptr_t from = object->dlpi_addr + object->dlpi_phdr[at].p_vaddr;
        if (from < low) low = from;
        if (from + object->dlpi_phdr[at].p_memsz > high) high = from + object->dlpi_phdr[at].p_memsz;
    }
    return 1;
}

__attribute__((constructor)) static void begin(void) {
    static const char *names[] = {"", "memory", "exhausted", "read", "write", "thread"};
    const char *name = getenv("FAILING_KIND"), *call = getenv("FAILING_CALL"), *to = getenv("FAILING_TOLD");
    if (!name || !call || !to) return;
    dl_iterate_phdr(first_object, NULL);
    wanted = atol(call), told = atoi(to);
    for (int at = 1; at < 6; at++)
        if (!strcmp(name, names[at])) kind = at;
}

/* Whether this call fails, which is then told. */
static int fails(void *caller) {
    if ((uintptr_t)caller < low || (uintptr_t)caller >= high) return 0;
    long call = __atomic_add_fetch(&calls, 1, __ATOMIC_SEQ_CST);
    if (call == wanted) syscall(SYS_write, told, "!", 1);
    return call == wanted || (kind == EXHAUSTED && call > wanted);
}

#define REFUSED ((kind == MEMORY || kind == EXHAUSTED) && fails(__builtin_return_address(0)))

void *malloc(size_t size) { return REFUSED ? NULL : __libc_malloc(size); }
void *calloc(size_t count, size_t size) { return REFUSED ? NULL : __libc_calloc(count, size); }
void *realloc(void *block, size_t size) { return REFUSED ? NULL : __libc_realloc(block, size); }
void *aligned_alloc(size_t align, size_t size) { return REFUSED ? NULL : __libc_memalign(align, size); }
int posix_memalign(void **block, size_t align, size_t size) {
    return REFUSED || !(*block = __libc_memalign(align, size)) ? ENOMEM : 0;
}

ssize_t read(int from, void *bytes, size_t count) {
    if (kind == READ && from == 0) {
        if (fails(__builtin_return_address(0))) return errno = EIO, -1;
        if (count > MOST_MOVED) count = MOST_MOVED;
    }
    return syscall(SYS_read, from, bytes, count);
}

ssize_t write(int to, const void *bytes, size_t count) {
    if (kind == WRITE && to == 1) {
        if (fails(__builtin_return_address(0))) return errno = EIO, -1;
        if (count > MOST_MOVED) count = MOST_MOVED;
    }
    return syscall(SYS_write, to, bytes, count);
}

int pthread_create(pthread_t *thread, const pthread_attr_t *attributes, void *(*run)(void *), void *with) {
    typedef int Start(pthread_t *, const pthread_attr_t *, void *(*)(void *), void *);
    if (kind == THREAD && fails(__builtin_return_address(0))) return EAGAIN;
    return ((Start *)dlsym(RTLD_NEXT, "pthread_create"))(thread, attributes, run, with);
}
"""

Row = collections.namedtuple("Row", "name words given")
Ended = collections.namedtuple("Ended", "status out failed")


def ring():
    """The lines of four routers in a ring, all metrics 1, each with an SRGB, an index, identifiers and labels."""
    pairs = [(1, 2), (2, 3), (3, 4), (4, 1)]
    for number in range(1, 5):
        body = scripts.capability(number) + scripts.prefix(number)
        for pair, ends in enumerate(pairs, 1):
            if number in ends:
                body += scripts.rich_reach(sum(ends) - number, 1, pair)
        yield f"lsp {scripts.pdu(number, body).hex()}"
    yield "commit"


def watched():
    """A hold of one version while the next is committed, a watch, and questions."""
    pair = f"{scripts.system_id(1)} {scripts.system_id(2)} 1"
    lines = [*ring(), "hold", f"down {pair}", "commit", "join", "watch 1 2", "watch 1 1", "join", "join"]
    lines += [f"repair link {pair} {scripts.system_id(2)}", f"up {pair}", "commit", "show"]
    return "".join(line + "\n" for line in lines).encode()


def built(folder):
    """The library that lets calls fail."""
    source, library = folder / "failing.c", folder / "failing.so"
    source.write_text(LIBRARY)
    subprocess.run(["cc", "-O1", "-shared", "-fPIC", "-o", library, source, "-ldl"], check=True)
    return library


def ended(program, row, library=None, kind="", call=0):
    """How the row ends where that call of the kind fails, and whether the call came."""
    here, there = os.pipe()
    told = {"LD_PRELOAD": str(library), "FAILING_KIND": kind, "FAILING_CALL": str(call), "FAILING_TOLD": str(there)}
    try:
        run = subprocess.run(
            [program, *row.words],
            input=row.given,
            stdout=subprocess.PIPE,
            stderr=subprocess.DEVNULL,
            check=False,
            timeout=PATIENCE,
            pass_fds=[there],
            env={**os.environ, **told} if library else None,
        )
        status, out = run.returncode, run.stdout
    except subprocess.TimeoutExpired:
        status, out = "none: it hangs", b""
    os.close(there)
    with os.fdopen(here, "rb") as pipe:
        failed = pipe.read() != b""
    return Ended(status, out, failed)


def sort(row, kind, call, whole, one):
    """How the run ended: as the failure is told, as if there had been none, or otherwise."""
    if KINDS[kind] is not None and one.status == KINDS[kind] and whole.out.startswith(one.out):
        return "told"
    if (one.status, one.out) == (whole.status, whole.out):
        return "absorbed"
    print(f"{row.name}, {kind} {call}: status {one.status}, {len(one.out)} of {len(whole.out)} bytes", flush=True)
    return "otherwise"


def each_call(program, row, library, kind, most):
    """Lets each call of a kind fail, and counts how the runs end."""
    whole, counts, call = ended(program, row), collections.Counter(), 0
    while call < most:
        call += 1
        one = ended(program, row, library, kind, call)
        if not one.failed:
            counts["otherwise"] += sort(row, kind, call, whole, one) != "absorbed"
            break
        counts[sort(row, kind, call, whole, one)] += 1
    print(
        f"{row.name:<12} {kind:<10} {sum(counts.values()):>6} calls: {counts['told']} told by the status, "
        f"{counts['absorbed']} absorbed, {counts['otherwise']} otherwise",
        flush=True,
    )
    return counts["otherwise"]


def devices(program, script):
    """What a user meets: commands, and the status of each."""
    run, make = f"'{program}' run", f"'{program}' make --nodes 64 --start 7"
    return [
        ("an empty input", f"{run} </dev/null", 0),
        ("a closed input", f"{run} <&-", 3),
        ("a folder as input", f"{run} </", 3),
        ("input that can't be read", f"{run} 0>/dev/null", 3),
        ("a closed output", f"{run} <'{script}' >&-", 4),
        ("output that can't be written", f"{run} <'{script}' 1</dev/null", 4),
        ("a full device", f"{run} <'{script}' >/dev/full", 4),
        ("a closed output, made", f"{make} >&-", 4),
        ("a full device, made", f"{make} >/dev/full", 4),
        ("a reader that went away", f"set -o pipefail; (sleep 0.5; {make}) | true", 4),
        ("neither input nor output", f"{run} <&- >&-", 3),
        ("a closed error output", f"'{program}' fly 2>&-", 2),
    ]


def at_devices(program, folder):
    """Runs the program at the devices that a user meets, and counts those where it ends otherwise than it should."""
    script, wrong = folder / "watched.script", 0
    script.write_bytes(watched())
    for name, command, wanted in devices(program, script):
        run = subprocess.run(["bash", "-c", command], capture_output=True, timeout=PATIENCE, check=False)
        wrong += run.returncode != wanted
        print(f"{name:<28} status {run.returncode}{'' if run.returncode == wanted else f', and should be {wanted}'}")
    return wrong


def main():
    if len(sys.argv) not in (2, 3):
        sys.exit("usage: failures.py PROGRAM [CALLS]")
    program = str(pathlib.Path(sys.argv[1]).resolve())
    most = int(sys.argv[2]) if len(sys.argv) == 3 else sys.maxsize
    wrong = 0
    with tempfile.TemporaryDirectory() as work:
        folder = pathlib.Path(work)
        library = built(folder)
        make = Row("make", ["make", "--nodes", "3", "--start", "0"], b"")
        large = Row("", ["make", "--nodes", "64", "--start", "7"], b"")
        rows = [Row("hold, watch", ["run"], watched()), make, Row("made script", ["run"], ended(program, make).out)]
        tries = [(row, kind) for row in rows for kind in KINDS]
        # So many cases are shared among threads.
        tries.append((Row("64 routers", ["run"], ended(program, large).out), "thread"))
        for row, kind in tries:
            wrong += each_call(program, row, library, kind, most)
        wrong += at_devices(program, folder)
    return 1 if wrong else 0


if __name__ == "__main__":
    sys.exit(main())
