"""The head of the C file: what it was made from, what is proved and what is tested."""
import re
import textwrap


TOOLCHAINS = {'core', 'std'}      # its own libraries, which its identity stands for


def head(header_text, sums, program, toolchain):
    """sums: of each proved crate, the SHA-256 of its MIR. The sum that the toolchain writes into a proved crate also changes with how its check came about, and is no name for it."""
    version = re.search(r'#define BARRIER_VERSION "(.*)"', header_text).group(1)
    crates = sorted({name.split('::')[0] for name in program.order} - TOOLCHAINS)
    plain = ' Plain form: without the rules that portable/README.md names.' if program.plain else ''
    paragraphs = [
        'barrier_engine.c - the barrier schedule engine, version %s, as one file of C99.%s This is C, not C++: compile it with a C compiler, and link it '
        'into either. Not to be edited: portable/translator makes it from the MIR of the proved crates, and `make portable` makes it again.' % (version, plain),
        'Proved: the MIR of these %d functions, the calls of barrier.h and all that they reach, each against its contract. Tested and not proved: the '
        'translator that wrote this file, and your compiler. portable/README.md says what is tested and how.' % len(program.order),
        'It asks the C library only for memcpy and memset (compilers may add memmove), has no state, and allocates nothing. Compile it without -ffast-math: '
        'its sums of doubles are those of IEEE 754.',
        'Toolchain: %s. Crates, each with the first 16 digits of the SHA-256 of its MIR: %s.' % (toolchain, ', '.join('%s %s' % (c, sums[c][:16]) for c in crates))]
    lines = ['/*']
    for text in paragraphs:
        lines += [' * ' + line for line in textwrap.wrap(text, 112)] + [' *']
    return lines[:-1] + [' */', '#ifdef __cplusplus', '#error "barrier_engine.c is C: compile it with a C compiler"', '#endif', '']
