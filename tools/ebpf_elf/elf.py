"""An object file in ELF, which pyelftools reads: its sections, symbols and relocations, where these fit together."""

import contextlib
import io
import sys
from dataclasses import dataclass

# Debian's packages, where another interpreter than Debian's comes first in PATH.
sys.path.append("/usr/lib/python3/dist-packages")
try:
    from elftools.elf.elffile import ELFFile
except ImportError:
    sys.exit("from-elf: pyelftools, which reads objects and is in Debian's package python3-pyelftools, isn't installed")

OBJECT, FUNC, UNDEFINED, COMMON = "STT_OBJECT", "STT_FUNC", "SHN_UNDEF", "SHN_COMMON"
EXECUTABLE = 4
# How many bytes each entry of the tables has.
ENTRY, SYMBOL, RELOCATION = 64, 24, 16
WORD = 8


class Refused(Exception):
    """What can't be taken, a line each."""


@dataclass(frozen=True)
class Section:
    name: str
    code: bool
    size: int
    data: bytes


@dataclass(frozen=True)
class Symbol:
    """A section's number is a word of pyelftools where it is none of a section."""

    name: str
    kind: str
    section: int | str
    at: int
    size: int
    weak: bool = False


@dataclass(frozen=True)
class Relocation:
    """Which bytes of a section are to be changed, by what kind of a change, and by which symbol."""

    at: int
    kind: int
    symbol: Symbol


@contextlib.contextmanager
def library():
    """What is raised below, as a refusal: of damaged objects pyelftools raises errors of its own and whatever Python does."""
    try:
        yield
    except Refused:
        raise
    except Exception as error:
        raise Refused(f"it is damaged: {error or type(error).__name__}") from error


def named(name, at, table, where):
    """A name at this place of a table of names."""
    if at + len(name.encode()) >= table["sh_size"] or not name.isprintable() or "\ufffd" in name:
        raise Refused(f"{where}: its name at byte {at} of a table of {table['sh_size']} bytes isn't text: {name[:32]!r}")
    return name


class Elf:
    """An object whose parts fit together."""

    def __init__(self, data):
        if not data.startswith(b"\x7fELF"):
            raise Refused("it is no ELF file")
        with library():
            elf = ELFFile(io.BytesIO(data))
            if elf["e_machine"] != "EM_BPF":
                raise Refused(f"it is of machine {elf['e_machine']}, and BPF is EM_BPF: compile with clang -target bpf")
            if elf["e_type"] != "ET_REL":
                raise Refused(f"it is an ELF file of type {elf['e_type']}, and an object's is ET_REL")
            if elf.elfclass != 64 or not elf.little_endian:
                raise Refused("it is no object of 64 bits for little-endian machines")
            if elf["e_shentsize"] != ENTRY or not elf["e_shnum"]:
                raise Refused(f"its table of sections has {elf['e_shnum']} entries of {elf['e_shentsize']} bytes, and an entry has {ENTRY}")
            self.parts = list(elf.iter_sections())
            names = self.parts[elf.get_shstrndx()]
            self.sections = [read_section(number, it, names) for number, it in enumerate(self.parts)]
            self.number_of = {it.name: number for number, it in enumerate(self.sections)}
            tables = [it for it in self.parts if it["sh_type"] == "SHT_SYMTAB"]
            if [it["sh_entsize"] for it in tables] != [SYMBOL]:
                raise Refused(f"it has {len(tables)} tables of symbols, and an object has one, whose entries have {SYMBOL} bytes")
            self.symbols = [self.symbol(number, it, tables[0].stringtable) for number, it in enumerate(tables[0].iter_symbols())]

    def symbol(self, number, it, names):
        section, at, size = it["st_shndx"], it["st_value"], it["st_size"]
        made = Symbol(named(it.name, it["st_name"], names, f"symbol {number}"), it["st_info"]["type"], section, at, size, it["st_info"]["bind"] == "STB_WEAK")
        where = f"symbol {number} ({made.name})" if made.name else f"symbol {number}"
        if isinstance(section, int):
            if section >= len(self.sections):
                raise Refused(f"{where} is in section {section}, and there are {len(self.sections)}")
            home = self.sections[section]
            if at + size > home.size:
                raise Refused(f"{where} ends at byte {at + size} of section {home.name}, which has {home.size}")
            if made.kind == FUNC and home.code and (at % WORD or size % WORD):
                raise Refused(f"{where} is a function of bytes {at} to {at + size} of section {home.name}, which are no words of {WORD}")
        return made

    def relocations(self, number):
        """The changes that are to be made to a section."""
        with library():
            return [self.relocation(it, part, self.sections[number]) for part in self.parts_for(number) for it in part.iter_relocations()]

    def parts_for(self, number):
        """The tables of relocations of a section."""
        for part in self.parts:
            if part["sh_type"] in ("SHT_REL", "SHT_RELA") and part["sh_info"] == number:
                if part["sh_type"] == "SHT_RELA" or part["sh_size"] % RELOCATION:
                    raise Refused(f"section {part.name}: {part['sh_size']} bytes of type {part['sh_type']}, and relocations for BPF are {RELOCATION} bytes each of type SHT_REL")
                yield part

    def relocation(self, it, part, home):
        at, symbol = it["r_offset"], it["r_info_sym"]
        where = f"section {part.name}: a relocation of byte {at}"
        if at + (WORD if home.code else 4) > home.size:
            raise Refused(f"{where} of section {home.name}, which has {home.size}")
        if home.code and at % WORD:
            raise Refused(f"{where} of section {home.name}, which is no word's first")
        if symbol >= len(self.symbols):
            raise Refused(f"{where} by symbol {symbol}, and there are {len(self.symbols)}")
        return Relocation(at, it["r_info_type"], self.symbols[symbol])


def read_section(number, it, names):
    name, size, kind = named(it.name, it["sh_name"], names, f"section {number}"), it.data_size, it["sh_type"]
    data = b"" if kind in ("SHT_NULL", "SHT_NOBITS") else it.data()
    if len(data) < size and kind not in ("SHT_NULL", "SHT_NOBITS"):
        raise Refused(f"it is cut: of {size} bytes of section {name} {len(data)} are there")
    code = bool(it["sh_flags"] & EXECUTABLE and size)
    if code and (kind != "SHT_PROGBITS" or size % WORD):
        raise Refused(f"section {name}: code of type {kind} and {size} bytes, which aren't words of {WORD}")
    return Section(name, code, size, data)
