"""The cases 'outside: ..' of tests/run: each call by which a run reaches the outside fails in its turn.

There is one for each command, and for some runs that are refused; each is a folder of tests/cases. Where a call of
`open` or `read` fails the status must be 4, and nothing is written. Where a call of `write` to standard output fails,
at once or after one byte, the status must be 5, and what was written is a prefix of the answer. Where one to standard
error fails the status must be as before.

Calls are counted and made to fail by a library that stands before the C library's in the program's process, which
needs a C compiler.
"""

import functools
import pathlib
import shutil
import subprocess
import tempfile

TOP = pathlib.Path(__file__).resolve().parent.parent
CASES = TOP / "tests" / "cases"
NAMES = [
    "core_a_product_is_one_equation",
    "eval_the_product_of_two_inputs",
    "rows_of_two_products",
    "check_two_products_of_one_operand_leak_it",
    "verify_holds_what_check_prints",
    "repair_the_square_of_an_input",
    "compile_repairs_what_leaks",
    "run_a_product_on_two_shares",
    "trial_two_shares",
    "gen_of_seed_1_and_one_product",
    "judged_cyclic_equations",
    "file_missing_for_core",
    "run_random_words_too_few",
    "words_none",
]
COMPILERS = ("cc", "gcc", "clang")
SECONDS = 60
KINDS = ("open or read", "standard output", "standard error")
AS_IT_MUST = "as it must"

# The call of KIND with the number CALL, from 1, fails; a write of more than a byte writes KEEP bytes first, 0 or 1. Of
# kind 0 are `open` and `read`, of kind 1 and 2 writes to that file. At the end it writes how many calls of each kind
# there were to COUNTED.
LIBRARY = """
#define _GNU_SOURCE
#include <errno.h>
#include <fcntl.h>
#include <stdio.h>
#include <stdlib.h>
#include <sys/syscall.h>
#include <unistd.h>
static long calls[3], kind, call, keep;
static int counted;
static long number(const char *name) {
  return atol(getenv(name));
}
__attribute__((constructor)) static void begin(void) {
  kind = number("KIND"), call = number("CALL"), keep = number("KEEP"), counted = number("COUNTED");
}
__attribute__((destructor)) static void end(void) {
  char text[64];
  int size = snprintf(text, sizeof text, "%ld %ld %ld", calls[0], calls[1], calls[2]);
  syscall(SYS_write, counted, text, (size_t)size);
}
static int fails(int of) {
  calls[of]++;
  return of == kind && calls[of] == call;
}
int open(const char *name, int flags, ...) {
  return fails(0) ? (errno = EIO, -1) : (int)syscall(SYS_openat, AT_FDCWD, name, flags, 0);
}
ssize_t read(int file, void *bytes, size_t size) {
  return fails(0) ? (errno = EIO, -1) : syscall(SYS_read, file, bytes, size);
}
static ssize_t written(int file, const void *bytes, size_t size) {
  if (file != 1 && file != 2) {
    return syscall(SYS_write, file, bytes, size);
  }
  if (!fails(file)) {
    return syscall(SYS_write, file, bytes, size);
  }
  if (keep == 0 || size == 1) {
    return errno = EIO, -1;
  }
  keep--;
  calls[file]--;
  return syscall(SYS_write, file, bytes, (size_t)1);
}
ssize_t write(int file, const void *bytes, size_t size) {
  return written(file, bytes, size);
}
ssize_t __write(int file, const void *bytes, size_t size) {
  return written(file, bytes, size);
}
"""


def compiler_there():
    return next((found for found in map(shutil.which, COMPILERS) if found), None)


@functools.cache
def folder_of_library():
    return tempfile.TemporaryDirectory()


@functools.cache
def built_library():
    """The library, compiled once for all cases."""
    folder = pathlib.Path(folder_of_library().name)
    source, library = folder / "calls.c", folder / "calls.so"
    source.write_text(LIBRARY)
    subprocess.run([compiler_there(), "-O1", "-fno-builtin", "-shared", "-fPIC", "-o", library, source], check=True)
    return library


def text_of(path):
    return path.read_bytes() if path.exists() else b""


def run_once(program, case, kind, call, keep):
    """How a run ends and what it writes where this call fails, and how many calls of each kind it makes."""
    words = (case / "words").read_text().splitlines()
    with tempfile.TemporaryFile() as counted:
        numbers = {"KIND": kind, "CALL": call, "KEEP": keep, "COUNTED": counted.fileno()}
        ran = subprocess.run(
            [program, *words],
            cwd=case,
            env={"LD_PRELOAD": str(built_library()), **{name: str(number) for name, number in numbers.items()}},
            input=text_of(case / "stdin"),
            stdout=subprocess.PIPE,
            stderr=subprocess.PIPE,
            pass_fds=[counted.fileno()],
            timeout=SECONDS,
        )
        counted.seek(0)
        return ran.returncode, ran.stdout, ran.stderr, [int(number) for number in counted.read().split()]


def is_right(kind, due, done):
    """Whether a run of which a call of this kind failed ended as it must, beside the run in which none failed."""
    status, out, err = done
    if kind == 0:
        return status == 4 and out == b"" and err.endswith(b": cannot read\n")
    if kind == 1:
        return status == 5 and due[1].startswith(out) and out != due[1] and err == b"tornado: cannot write\n"
    return status == due[0] and out == due[1] and due[2].startswith(err) and err != due[2]


def run_case(program, case):
    """How the run must end where nothing fails, and as it must where a call fails; and how each of them ended."""
    *whole, calls = run_once(program, case, 0, 0, 0)
    due = {"nothing fails": [int(text_of(case / "status") or b"0"), text_of(case / "stdout"), text_of(case / "stderr")]}
    done = {"nothing fails": whole}
    for kind, call, keep in failing(calls):
        end = run_once(program, case, kind, call, keep)[:3]
        name = f"{KINDS[kind]}, call {call}, after {keep} bytes"
        due[name], done[name] = AS_IT_MUST, AS_IT_MUST if is_right(kind, whole, end) else end
    return in_bytes(due), in_bytes(done)


def failing(calls):
    """What can fail, of so many calls of each kind: kind, number, and how many bytes are kept."""
    numbered = [(kind, call) for kind in range(3) for call in range(1, calls[kind] + 1)]
    return [(kind, call, keep) for kind, call in numbered for keep in range(2 if kind else 1)]


def in_bytes(ends):
    return {name: repr(end).encode() for name, end in ends.items()}


def cases(program):
    """Each case's name, with how it is run; a line where none is tried."""
    if not compiler_there():
        print(f"calls of the outside are not made to fail: none of {', '.join(COMPILERS)} is there")
        return {}
    return {f"outside: {name}": functools.partial(run_case, program, CASES / name) for name in NAMES}
