#!/usr/bin/env python3
"""What the list of records costs that a statement makes which only looks (`records_of` of rm_machine), over a catalog of 16,000 logs:
    bench/looking.py PROGRAM
PROGRAM is the program as it was built, and not the script ./rman; it wants valgrind, cc and nm. VALIDATE ALL, RECOVER .. TEST and a level 1, of a datafile of one block and of
one of 65,536, beside the same session without: instructions, by callgrind, and bytes that are asked of malloc and realloc, each in the whole statement and in `records_of` with what
it calls. An allocation is within `records_of` where a return address into it stands on the
stack. One may be left there from before, so the least of the three statements is told: the list is the same in each."""
import os
import re
import shutil
import subprocess
import sys
import tempfile

from channels import SAVED, Prepared, Subject, digest_of
from functions import callgrind, read_callgrind

LOGS = 16000
FUNCTION = "rm_machine::recorded::records_of"
STATEMENTS = {"VALIDATE ALL": "VALIDATE ALL;", "RECOVER .. TEST": "RECOVER DATABASE TEST;", "a level 1": "BACKUP INCREMENTAL LEVEL 1 DATABASE;"}

# Writes how many bytes were asked for, and how many by calls with WITHIN on the stack, which is where a function begins in the program and how long it is.
COUNTING = r"""
#define _GNU_SOURCE
#include <link.h>
#include <stdio.h>
#include <stdlib.h>
#include <sys/syscall.h>
#include <unistd.h>
extern void *__libc_malloc(size_t), *__libc_realloc(void *, size_t), *__libc_stack_end;
static unsigned long from, length, all, within;
static int program(struct dl_phdr_info *it, size_t size, void *base) { *(unsigned long *)base = it->dlpi_addr; return 1; }
__attribute__((constructor)) static void begin(void) {
    unsigned long base = 0;
    dl_iterate_phdr(program, &base);
    if (getenv("WITHIN")) sscanf(getenv("WITHIN"), "%lx %lx", &from, &length);
    from += base;
}
static void count(size_t n) {
    __atomic_add_fetch(&all, n, __ATOMIC_RELAXED);
    if (getpid() != syscall(SYS_gettid)) return;
    for (unsigned long *at = __builtin_frame_address(0); (void *)at < __libc_stack_end; at++)
        if (*at - from < length) { within += n; return; }
}
__attribute__((destructor)) static void end(void) {
    FILE *file = fopen(getenv("COUNTED"), "w");
    if (file) { fprintf(file, "%lu %lu\n", all, within); fclose(file); }
}
__attribute__((noreturn)) void _exit(int status) { end(); for (;;) syscall(SYS_exit_group, status); }
void *malloc(size_t n) { count(n); return __libc_malloc(n); }
void *realloc(void *p, size_t n) { count(n); return __libc_realloc(p, n); }
"""


def place_of(program):
    """Where the function begins in the program, and how long it is."""
    for line in subprocess.run(["nm", "-S", program], capture_output=True, text=True, check=True).stdout.splitlines():
        found = re.fullmatch(rf"(\w+) (\w+) \w {FUNCTION}", line)
        if found:
            return f"{found[1]} {found[2]}"
    sys.exit(f"looking: {program} has no function {FUNCTION}: the compiler put it into its callers")


def main(program):
    program = os.path.abspath(program)
    within = place_of(program)
    print(f"program {digest_of(program)[:8]}", flush=True)
    with tempfile.TemporaryDirectory(dir="/dev/shm") as room:
        library, counted = f"{room}/counting.so", f"{room}/counted"
        subprocess.run(["cc", "-shared", "-fPIC", "-O1", "-o", library, "-x", "c", "-"], input=COUNTING, text=True, check=True)
        by_library = ["env", f"LD_PRELOAD={library}", f"COUNTED={counted}", f"WITHIN={within}"]
        for blocks in (1, 65536):
            logs = "WRITE DATAFILE 1 BLOCK 0 VALUE 'A'; ALTER SYSTEM SWITCH LOGFILE;" * LOGS
            made = [f"CREATE DATABASE; CREATE DATAFILE BLOCKS {blocks}; BACKUP INCREMENTAL LEVEL 0 DATABASE; {logs}"]
            prepared = Prepared(program, Subject("looking", "", 1, made, SAVED), f"{room}/{blocks}")

            def counts(statement):
                """What a session takes in instructions, in all and in the list, and in bytes likewise."""
                prepared.session(f"{SAVED}\n{statement}", 1, callgrind(counted))
                shutil.rmtree(prepared.place)
                own, whole, _ = read_callgrind(counted)
                prepared.session(f"{SAVED}\n{statement}", 1, by_library)
                shutil.rmtree(prepared.place)
                with open(counted, encoding="ascii") as it:
                    return (sum(own.values()), whole[FUNCTION], *map(int, it.read().split()))

            without = counts("")
            more = {name: [one - other for one, other in zip(counts(statement), without)] for name, statement in STATEMENTS.items()}
            asked = min(it[3] for it in more.values())
            for name, (every, ours, bytes_of_all, _) in more.items():
                instructions = f"{ours / 1e6:.1f} of {every / 1e6:,.1f} million instructions, {100 * ours / every:.1f} %"
                print(f"the list of {LOGS} logs' records in {name} of {blocks} blocks: {instructions}; {asked / 1e6:.1f} of {bytes_of_all / 1e6:,.1f} MB asked for, {100 * asked / bytes_of_all:.1f} %", flush=True)


if __name__ == "__main__":
    main(*sys.argv[1:])
