"""Printed C under real compilers: its output shares against those of `tornado run`, word for word.

What a C compiler makes of the text is not proved. Here each example is printed as C in each size of words that it can
have, compiled with each compiler that is there, for some numbers of shares, and run on the shares and random words that
`run` is given.
"""

import concurrent.futures
import functools
import os
import pathlib
import random
import re
import shutil
import subprocess
import tempfile

TOP = pathlib.Path(__file__).resolve().parent.parent
PAGE = TOP / "docs" / "MASKED_C.md"
PAGE_EXAMPLE = TOP / "examples" / "rectangle.ua"
PAGE_PRINTS = b"4 65531 8188 24581\n"
COMPILERS = ("gcc", "clang")
FLAGS = ("-std=c99", "-Wall", "-Wextra", "-Wno-unused-function", "-Werror")
SHARES = (1, 2, 3, 5)
SIZES = (8, 16, 32, 64)
SECONDS = 300

# Plays the shares and then the words that it reads, and prints the shares of each output as `run` does.
PLAYER = """
#include <inttypes.h>
#include <stdint.h>
#include <stdio.h>
#include <stdlib.h>
typedef uint%(bits)s_t reg;
void masked(reg out[%(outputs)s][D], reg in[%(inputs)s][D]);
uint64_t tornado_random(void);
static uint64_t next(void) {
  uint64_t number;
  if (scanf("%%" SCNu64, &number) != 1) {
    exit(3);
  }
  return number;
}
uint64_t tornado_random(void) {
  return next();
}
static reg out[%(outputs)s][D];
static reg in[%(inputs)s][D];
int main(void) {
  for (unsigned k = 0; k < %(inputs)s; k++) {
    for (unsigned i = 0; i < D; i++) {
      in[k][i] = (reg)next();
    }
  }
  masked(out, in);
  for (unsigned k = 0; k < %(outputs)s; k++) {
    printf("o%%u", k);
    for (unsigned i = 0; i < D; i++) {
      printf(" %%" PRIu64, (uint64_t)out[k][i]);
    }
    printf("\\n");
  }
  return 0;
}
"""


def output_of(words, **more):
    return subprocess.run(words, check=True, stdout=subprocess.PIPE, timeout=SECONDS, **more).stdout


def page_main():
    """The main function of the page for who uses the C."""
    return re.search(r"(?ms)^```c\n(.*?)^```$", PAGE.read_text())[1]


def takes_words(program, words):
    """Whether the program has these words as an order: where it has none its status is 2."""
    ran = subprocess.run([program, *words], stdin=subprocess.DEVNULL, capture_output=True, timeout=SECONDS)
    return ran.returncode not in (2, 3)


def parts_of(text):
    """The counts and the mask that a printed text has, and how many of its calls draw words."""
    found = {
        "bits": r"typedef uint(\d+)_t reg;",
        "outputs": r"void masked\(reg out\[(\d+)\]",
        "inputs": r", reg in\[(\d+)\]",
        "mask": r"c\[0\] = \(reg\)\(\(uint64_t\)a\[0\] \^ UINT64_C\((\d+)\)\);",
    }
    parts = {name: re.search(form, text)[1] for name, form in found.items()}
    return parts | {"draws": len(re.findall(r"(?m)^  g_(?:and|refresh)\(", text))}


def numbers_for(parts, shares):
    """Input shares and random words, the same in each run. Short words keep the data within the limit on files."""
    numbers = random.Random(shares)
    inputs = [numbers.randint(0, int(parts["mask"])) for _ in range(int(parts["inputs"]) * shares)]
    lengths = numbers.choices((8, 40, 64), k=parts["draws"] * shares * (shares - 1) // 2)
    words = [numbers.getrandbits(length) for length in lengths]
    return inputs, words


def line_of(numbers):
    return " ".join(map(str, numbers))


def shares_compared(program, compiler, folder, parts, shares):
    """What `run` prints, and what the compiled text prints."""
    inputs, words = numbers_for(parts, shares)
    data = folder / f"data_{shares}"
    data.write_text(f"shares {shares} inputs {line_of(inputs)} random {line_of(words)}\n")
    built = folder / f"built_{shares}"
    sources = [folder / "masked.c", folder / "player.c"]
    output_of([compiler, *FLAGS, f"-DD={shares}", "-o", built, *sources], stderr=subprocess.STDOUT)
    due = output_of([program, "run", folder / "masked.c", data])
    return due, output_of([built], input=f"{line_of(inputs)} {line_of(words)}\n".encode())


def run_text(program, compiler, words):
    """What must be printed for each number of shares, and what the compiled text prints."""
    with tempfile.TemporaryDirectory() as made:
        folder = pathlib.Path(made)
        text = output_of([program, *words])
        (folder / "masked.c").write_bytes(text)
        parts = parts_of(text.decode())
        (folder / "player.c").write_text(PLAYER % parts)
        compare = functools.partial(shares_compared, program, compiler, folder, parts)
        with concurrent.futures.ThreadPoolExecutor(os.cpu_count()) as pool:
            ran = dict(zip(SHARES, pool.map(compare, SHARES)))
    return tuple({f"{shares} shares": pair[k] for shares, pair in ran.items()} for k in (0, 1))


def run_page(program, compiler):
    """That the main function of the page encrypts as it says, for each number of shares."""
    done = {}
    with tempfile.TemporaryDirectory() as made:
        folder = pathlib.Path(made)
        (folder / "main.c").write_text(page_main())
        (folder / "rectangle.c").write_bytes(output_of([program, "compile", PAGE_EXAMPLE]))
        for shares in SHARES:
            built = folder / f"built_{shares}"
            sources = [folder / "main.c", folder / "rectangle.c"]
            output_of([compiler, *FLAGS, f"-DD={shares}", "-o", built, *sources], stderr=subprocess.STDOUT)
            done[f"{shares} shares"] = output_of([built])
    return dict.fromkeys(done, PAGE_PRINTS), done


def orders_of(program):
    """The orders that print the examples as C, by name: in each size of words that they can have."""
    for example in sorted((TOP / "examples").glob("*.ua")):
        own = ["compile", str(example)]
        asked = [[*own, "--word", str(size)] for size in SIZES]
        taken = [words for words in asked if takes_words(program, words)]
        for words in taken or [own]:
            yield " ".join([example.name, *words[2:]]), words


def compilers_there():
    """The compilers that are there, with a line for each that is not."""
    there = [compiler for compiler in COMPILERS if shutil.which(compiler)]
    for compiler in COMPILERS:
        if compiler not in there:
            print(f"real C is not tried with {compiler}, which is not there")
    return there


def cases(program):
    """Each case's name, with how it is run; a line for what is not tried."""
    if not takes_words(program, ["compile", str(TOP / "examples" / "majority.ua")]):
        print("real C is not tried: the program has no command compile")
        return {}
    there = compilers_there()
    page = f"docs/{PAGE.name}"
    pages = {f"real C: {compiler} {page}": functools.partial(run_page, program, compiler) for compiler in there}
    if not takes_words(program, ["run", "no_file", "no_data"]):
        print("printed C is not compared with run: the program has no command run")
        return pages
    orders = list(orders_of(program)) if there else []
    return pages | {
        f"real C: {compiler} {name}": functools.partial(run_text, program, compiler, words)
        for name, words in orders
        for compiler in there
    }
