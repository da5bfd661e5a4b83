"""A library that counts a program's allocations and refuses one of them. It needs a C compiler (`cc`)."""

import os
import pathlib
import subprocess
import sys

REFUSING = r"""
#define _GNU_SOURCE
#include <dlfcn.h>
#include <fcntl.h>
#include <stdatomic.h>
#include <stdlib.h>
#include <sys/mman.h>

/* How many allocations were made stands in a file, which is read when the program has ended. */
static atomic_long own, *made = &own;
static long refused_at;

__attribute__((constructor)) static void begin(void) {
    refused_at = atol(getenv("REFUSED_AT"));
    int file = open(getenv("ALLOCATIONS_TO"), O_RDWR);
    made = mmap(NULL, sizeof *made, PROT_READ | PROT_WRITE, MAP_SHARED, file, 0);
}

static int is_refused(void) { return atomic_fetch_add(made, 1) + 1 == refused_at; }

void *malloc(size_t size) {
    static void *(*next)(size_t);
    if (!next) next = (void *(*)(size_t))dlsym(RTLD_NEXT, "malloc");
    return is_refused() ? NULL : next(size);
}

void *realloc(void *old, size_t size) {
    static void *(*next)(void *, size_t);
    if (!next) next = (void *(*)(void *, size_t))dlsym(RTLD_NEXT, "realloc");
    return is_refused() ? NULL : next(old, size);
}
"""


def made_library(folder):
    """The library that refuses one allocation."""
    source, library = pathlib.Path(folder, "refusing.c"), pathlib.Path(folder, "refusing.so")
    source.write_text(REFUSING)
    subprocess.run(["cc", "-O1", "-shared", "-fPIC", "-o", library, source, "-ldl"], check=True)
    return str(library)


def starved(library, told, command, refused_at, seconds, **words):
    """How a command ended whose allocation of that number was refused, and how many it made."""
    pathlib.Path(told).write_bytes(bytes(8))
    own = {"LD_PRELOAD": library, "REFUSED_AT": str(refused_at), "ALLOCATIONS_TO": str(told)}
    ended = subprocess.run(
        command, env={**os.environ, **own}, timeout=seconds, stdin=subprocess.DEVNULL, stdout=subprocess.PIPE,
        stderr=subprocess.DEVNULL, **words,
    )
    text = ended.stdout.decode(errors="replace")
    return ended.returncode, text, int.from_bytes(pathlib.Path(told).read_bytes(), sys.byteorder)
