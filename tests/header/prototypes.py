#!/usr/bin/env python3
"""Holds the prototypes of include/trianglefire.h to the functions that the crate trianglefire_c exports.

Nothing else does: the linker sees names alone, so a swapped or a dropped argument would link and then read the wrong memory. Both
sides are read into the same form, a list of C arguments, and compared argument by argument by name, type and const. Each difference
is one line; the exit status is 1 if there is any, or if a file is missing.

    prototypes.py [--header FILE] [--source FILE]     compare the two
    prototypes.py --self-test                         try the comparison on small samples, right and wrong
"""
import argparse
import difflib
import pathlib
import re
import sys

ROOT = pathlib.Path(__file__).resolve().parents[2]
HEADER = ROOT / "include" / "trianglefire.h"
SOURCE = ROOT / "crates" / "trianglefire_c" / "src" / "lib.rt"

# A Rattle number and the C type that it passes as.
NUMBERS = {
    "u8": "uint8_t", "u16": "uint16_t", "u32": "uint32_t", "u64": "uint64_t", "usize": "size_t",
    "i8": "int8_t", "i16": "int16_t", "i32": "int32_t", "i64": "int64_t", "bool": "bool",
}


class Unreadable(Exception):
    """A declaration that is written in a way that this program does not know."""


def split_arguments(text):
    """The parts of an argument list, whose types hold no comma."""
    return [part.strip() for part in text.split(",") if part.strip()]


def c_arguments_of(function, argument):
    """The C arguments that one argument of an exported Rattle function passes as."""
    name, colon, kind = (part.strip() for part in argument.partition(":"))
    slice_of = re.fullmatch(r"&\s*(?:'\w+\s+)?(mut\s+)?\[\s*(\w+)\s*\]", kind)
    if colon and kind in NUMBERS:
        return [f"{NUMBERS[kind]} {name}"]
    if colon and slice_of and slice_of[2] in NUMBERS:
        shared = "" if slice_of[1] else "const "
        return [f"{shared}{NUMBERS[slice_of[2]]} *{name}", f"size_t {name}_n"]
    raise Unreadable(f"{function}: the source's argument '{argument}' is neither a number nor a slice of numbers")


def exported(source):
    """The functions that a Rattle source exports: name to (result, arguments), in C's terms."""
    source = re.sub(r"//[^\n]*", "", source)
    found = {}
    heads = re.finditer(
        r"#\[\s*unsafe\s*\(\s*no_mangle\s*\)\s*\]\s*pub\s+extern\s+\"C\"\s+fn\s+(\w+)\s*(?:<[^>]*>)?\s*\(([^()]*)\)\s*(?:->\s*([^\s{]+))?", source)
    for name, arguments, result in (head.groups() for head in heads):
        if result is not None and result not in NUMBERS:
            raise Unreadable(f"{name}: the source's result '{result}' is no number")
        given = [c for argument in split_arguments(arguments) for c in c_arguments_of(name, argument)]
        found[name] = ("void" if result is None else NUMBERS[result], given)
    return found


def spaced(declaration):
    """A C declaration with its spaces as C programmers write them."""
    return re.sub(r"\s*\*\s*", " *", " ".join(declaration.split()))


def counted(arguments):
    """C arguments with `NAME_n` for `NAME_words`, which a count may be called behind a slice of 32-bit words and nowhere else."""
    named = list(arguments)
    for i, (before, argument) in enumerate(zip(arguments, arguments[1:]), start=1):
        words = re.fullmatch(r"(?:const )?uint32_t \*(\w+)", before)
        if words and argument == f"size_t {words[1]}_words":
            named[i] = f"size_t {words[1]}_n"
    return named


def declared(header):
    """The functions that a header declares and does not define: name to (result, arguments)."""
    header = re.sub(r"/\*.*?\*/|//[^\n]*", " ", header, flags=re.S)
    header = re.sub(r"^[ \t]*#(?:[^\n\\]|\\.)*$", " ", header, flags=re.M | re.S)
    header = re.sub(r"extern\s+\"C\"\s*\{", " ", header)
    bodies = 1
    while bodies:
        header, bodies = re.subn(r"\{[^{}]*\}", " = body; ", header)
    found = {}
    for statement in header.replace("}", " ").split(";"):
        prototype = re.fullmatch(r"\s*([\w\s*]+?)\b(\w+)\s*\(([^()]*)\)\s*", statement)
        if prototype:
            result, name, arguments = prototype.groups()
            given = counted([spaced(argument) for argument in split_arguments(arguments)])
            found[name] = (spaced(result), [] if given == ["void"] else given)
    return found


def argument_differences(name, wanted, given):
    """A line for each argument that the header has otherwise than the source."""
    if len(wanted) == len(given):
        pairs = enumerate(zip(wanted, given), start=1)
        return [f"{name}: argument {i}: the source has '{w}', the header has '{g}'" for i, (w, g) in pairs if w != g]
    lines = []
    for tag, w1, w2, g1, g2 in difflib.SequenceMatcher(None, wanted, given, autojunk=False).get_opcodes():
        if tag != "equal":
            lines += [f"{name}: argument {i + 1} of the source, '{wanted[i]}', is not in the header there" for i in range(w1, w2)]
            lines += [f"{name}: argument {i + 1} of the header, '{given[i]}', is not in the source there" for i in range(g1, g2)]
    return lines


def differences(source, header):
    """A line for each difference between what a source exports and what a header declares."""
    try:
        exports, prototypes = exported(source), declared(header)
    except Unreadable as problem:
        return [str(problem)]
    lines = [] if exports else ["the source exports no function"]
    lines += [f"{name}: declared in the header, not exported by the source" for name in prototypes if name not in exports]
    for name, (result, arguments) in exports.items():
        if name not in prototypes:
            lines.append(f"{name}: exported by the source, not declared in the header")
            continue
        has_result, has_arguments = prototypes[name]
        if result != has_result:
            lines.append(f"{name}: the source returns '{result}', the header says '{has_result}'")
        lines += argument_differences(name, arguments, has_arguments)
    return lines


SAMPLE_SOURCE = """
// #[unsafe(no_mangle)] pub extern "C" fn commented_out(x: u32) -> u32
pub fn inner(x: u32) -> u32 { x }
#[unsafe(no_mangle)]
pub extern "C" fn tf_sum(p: u32, w: u32, chip: &mut [u32], buffer: &[u32]) -> u32
    ensures { result ≡ sum p buffer.now }
{
    inner(p)
}
#[unsafe(no_mangle)]
pub extern "C" fn tf_bytes(bytes: &[u8], numbers: &mut [u32], place: &mut [u8]) -> u32 { 0 }
#[unsafe(no_mangle)]
pub extern "C" fn tf_none() {}
"""
SAMPLE_HEADER = """
#ifndef SAMPLE_H
#define TWICE(x) \\
    ((x) + (x))
enum { TF_ONE = 1 };
/* uint32_t commented_out(uint32_t x); */
static inline uint64_t tf_size(uint32_t p) { if (p) { return tf_other(p); } return 0; }
#ifdef __cplusplus
extern "C" {
#endif
uint32_t tf_sum(uint32_t p, uint32_t w,
                uint32_t *chip, size_t chip_words,
                const uint32_t *buffer, size_t buffer_words);
uint32_t tf_bytes(const uint8_t *bytes, size_t bytes_n,
                  uint32_t *numbers, size_t numbers_n,
                  uint8_t *place, size_t place_n);
void tf_none(void);
#ifdef __cplusplus
}
#endif
#endif
"""

# What is done to one side, and the lines that must follow, by a word of each.
SAMPLES = [
    ("nothing", "header", "", "", []),
    ("numbers swapped", "header", "uint32_t p, uint32_t w", "uint32_t w, uint32_t p", ["argument 1", "argument 2"]),
    ("slices swapped", "source", "chip: &mut [u32], buffer: &[u32]", "buffer: &[u32], chip: &mut [u32]",
     ["argument 3", "argument 4", "argument 5", "argument 6"]),
    ("pointer and count swapped", "header", "uint32_t *chip, size_t chip_words", "size_t chip_words, uint32_t *chip",
     ["argument 3", "argument 4"]),
    ("number dropped", "header", "uint32_t p, ", "", ["'uint32_t p', is not in the header"]),
    ("count dropped", "header", ", size_t chip_words", "", ["'size_t chip_n', is not in the header"]),
    ("slice dropped", "source", ", buffer: &[u32]", "", ["'const uint32_t *buffer'", "'size_t buffer_n'"]),
    ("argument added", "header", "uint32_t p,", "uint32_t p, uint32_t page,", ["'uint32_t page', is not in the source"]),
    ("const lost", "header", "const uint32_t *buffer", "uint32_t *buffer", ["argument 5"]),
    ("const added", "header", "uint32_t *chip", "const uint32_t *chip", ["argument 3"]),
    ("made mutable", "source", "buffer: &[u32]", "buffer: &mut [u32]", ["argument 5"]),
    ("another width", "source", "w: u32", "w: u64", ["argument 2"]),
    ("another name", "header", "size_t buffer_words", "size_t length", ["argument 6"]),
    ("words counted as n", "header", "size_t buffer_words", "size_t buffer_n", []),
    ("n counted as words", "header", "size_t numbers_n", "size_t numbers_words", []),
    ("bytes counted as words", "header", "size_t bytes_n", "size_t bytes_words", ["argument 2"]),
    ("the count of another slice", "header", "size_t place_n", "size_t numbers_n", ["argument 6"]),
    ("bytes for words", "header", "uint8_t *place", "uint32_t *place", ["argument 5"]),
    ("words for bytes", "source", "bytes: &[u8]", "bytes: &[u32]", ["argument 1"]),
    ("const lost of bytes", "header", "const uint8_t *bytes", "uint8_t *bytes", ["argument 1"]),
    ("bytes made mutable", "source", "bytes: &[u8]", "bytes: &mut [u8]", ["argument 1"]),
    ("bytes dropped", "source", ", place: &mut [u8]", "", ["'uint8_t *place'", "'size_t place_n'"]),
    ("another result", "header", "uint32_t tf_sum", "uint64_t tf_sum", ["returns 'uint32_t'"]),
    ("no prototype", "header", "void tf_none(void);", "", ["not declared in the header"]),
    ("not exported", "source", "#[unsafe(no_mangle)]\npub extern \"C\" fn tf_none", "pub extern \"C\" fn tf_none",
     ["not exported by the source"]),
    ("a struct", "source", "p: u32, w: u32", "g: Geometry", ["neither a number nor a slice"]),
    ("spaces", "header", "uint32_t *chip", "uint32_t*\n  chip", []),
]


def self_test():
    """Tries each sample; the number of those that are not answered as they must be."""
    failures = 0
    for what, side, old, new, words in SAMPLES:
        source = SAMPLE_SOURCE.replace(old, new, 1) if side == "source" else SAMPLE_SOURCE
        header = SAMPLE_HEADER.replace(old, new, 1) if side == "header" else SAMPLE_HEADER
        lines = differences(source, header)
        changed = not old or source != SAMPLE_SOURCE or header != SAMPLE_HEADER
        if not changed or len(lines) != len(words) or not all(word in line for word, line in zip(words, lines)):
            print(f"prototypes: sample '{what}': expected {words}, found {lines}", file=sys.stderr)
            failures += 1
    print(f"prototypes: {len(SAMPLES)} samples, {failures} answered otherwise than they must be")
    return failures


def main():
    parser = argparse.ArgumentParser(description="Holds the header's prototypes to the exported functions.")
    parser.add_argument("--header", type=pathlib.Path, default=HEADER)
    parser.add_argument("--source", type=pathlib.Path, default=SOURCE)
    parser.add_argument("--self-test", action="store_true")
    options = parser.parse_args()
    if options.self_test:
        return 1 if self_test() else 0
    for file in (options.header, options.source):
        if not file.is_file():
            print(f"prototypes: {file} does not exist, so nothing can be compared", file=sys.stderr)
            return 1
    lines = differences(options.source.read_text(encoding="utf-8"), options.header.read_text(encoding="utf-8"))
    for line in lines:
        print(f"prototypes: {line}", file=sys.stderr)
    if not lines:
        print("prototypes: the header declares exactly what the source exports")
    return 1 if lines else 0


if __name__ == "__main__":
    sys.exit(main())
