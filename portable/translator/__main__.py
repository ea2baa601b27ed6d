"""The proved MIR of the engine, as one file of C99.

    python3 portable/translator --rlibs crates/*/out/rlib KIT_RLIBS --header include/barrier.h --sources crates --crate barrier_engine [--plain]

portable/README.md says how to read this program, portable/make.sh runs it.
"""
import argparse
import pathlib
import sys

from head import head
from program import Program, exported, read_crates
from refused import Refused


def main():
    parser = argparse.ArgumentParser(description=__doc__.split('\n')[0])
    parser.add_argument('--rlibs', nargs='+', required=True, help='folders of proved crates')
    parser.add_argument('--crate', required=True, help='the crate whose functions are the header\'s calls')
    parser.add_argument('--header', required=True)
    parser.add_argument('--sources', help='the crates\' sources, for names and comments alone')
    parser.add_argument('--toolchain', default='', help='what rt version prints, for the head')
    parser.add_argument('--plain', action='store_true', help='without the rules written_out, in_place, copies, inline and by_pointer')
    args = parser.parse_args()
    header = pathlib.Path(args.header)
    try:
        functions = read_crates(args.rlibs, args.crate)
        exports = exported(functions, args.crate)
        text = header.read_text(encoding='utf-8')
        program = Program(functions, exports, text, args.sources, args.plain)
        print(program.write(head(text, functions.sums, program, args.toolchain), header.name), end='')
    except Refused as e:
        sys.exit('translator: refused: %s' % e)


if __name__ == '__main__':
    main()
