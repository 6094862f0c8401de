"""Writes what links the forms of the library behind the names of the header, for scripts/build-library.

function_table.py stubs: the assembly of a library of two forms, whose symbols have the prefixes of forms.py. A function is a jump to the address
that the page bf_page has for it, whatever its parameters are. The page begins with the name of a form, and has nothing else, so that it
can be made read-only (scripts/processors.c).

function_table.py renames FORM: the lines of `objcopy --redefine-syms` that give a library of one form the header's names.
"""

import sys

import c_library
import forms

# The form of which second forms of functions, in registers of 256 bits, stand behind the names of the first.
WIDE_FORM = "x86-64-v3"
PAGE = 4096

STUB = """\
    .globl {name}
    .type {name}, @function
    .balign 16
{name}:
    .cfi_startproc
    endbr64
    jmp *bf_page+{place}(%rip)
    .cfi_endproc
    .size {name}, .-{name}
"""

DATA = """\
    .section .rodata
{texts}
    .globl bf_page_entries
    .balign 8
bf_page_entries:
    .quad {count}
    .section .data.rel.ro,"aw",@progbits
    .globl bf_page_of_v3
    .balign 8
bf_page_of_v3:
{high}
    .data
    .globl bf_page
    .balign {page}
bf_page:
{low}
    .balign {page}
    .section .note.GNU-stack,"",@progbits
"""


def names():
    """The proved functions that the header declares."""
    return [f"bf_{name}" for name, *_ in [*c_library.PLAIN_FUNCTIONS, *c_library.functions()]]


def behind(form):
    """The symbol of a form that stands behind each name."""
    second = {f"bf_{name}": f"bf_{wide}" for name, wide in c_library.second_forms()} if form == WIDE_FORM else {}
    return {name: second.get(name, name) for name in names()}


def entries(form):
    """The name of a form, and then the address of each function in it."""
    symbols = [f"name_of_{form.replace('-', '_')}", *(forms.prefix(form) + it for it in behind(form).values())]
    return "\n".join(f"    .quad {it}" for it in symbols)


def stubs():
    """The whole of the assembly."""
    count = 1 + len(names())
    if 8 * count > PAGE:
        sys.exit(f"function_table: {count} addresses take more than the page that scripts/processors.c makes read-only")
    low, high = forms.BOTH
    texts = "\n".join(f'name_of_{it.replace("-", "_")}:\n    .string "{it}"' for it in forms.BOTH)
    functions = "".join(STUB.format(name=name, place=8 * at) for at, name in enumerate(names(), 1))
    return "    .text\n" + functions + DATA.format(texts=texts, count=count, high=entries(high), low=entries(low), page=PAGE)


def renames(form):
    """Each function gets its name from the symbol that stands behind it; the first form of one that has a second gets another."""
    pairs = [(symbol, name) for name, symbol in behind(form).items() if symbol != name]
    return "".join(f"{symbol} {name}\n{name} {name}_narrow\n" for symbol, name in pairs)


def main():
    """Writes to standard output."""
    words = sys.argv[1:]
    if words == ["stubs"]:
        sys.stdout.write(stubs())
    elif len(words) == 2 and words[0] == "renames":
        sys.stdout.write(renames(words[1]))
    else:
        sys.exit(__doc__)


if __name__ == "__main__":
    main()
