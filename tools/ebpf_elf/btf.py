"""The types of an object (.BTF), which bpftool reads, and the lines of C that its words were made of (.BTF.ext), which nothing
prints, as Linux's Documentation/bpf/btf.rst has them."""

import json
import os
import shutil
import struct
import subprocess
import sys
from dataclasses import dataclass

from ebpf_elf.elf import Refused

NAMES_FOR = {"TYPEDEF", "CONST", "VOLATILE", "RESTRICT", "TYPE_TAG"}
# No type of C is in so many others.
DEPTH = 64
# No map's structure has more members.
MEMBERS = 32
# How many bytes a line of C has in .BTF.ext, at least.
RECORD = 16


def bpftool(*words):
    """What bpftool answers."""
    found = shutil.which("bpftool", path=f"{os.environ.get('PATH', '')}:/usr/sbin:/sbin")
    if found is None:
        sys.exit("from-elf: bpftool, which reads types and links objects and is in Debian's package bpftool, isn't installed")
    return subprocess.run([found, *words], capture_output=True, text=True, errors="replace")


class Types:
    """The types of an object by their numbers, as bpftool prints them."""

    def __init__(self, path):
        got = bpftool("--json", "btf", "dump", "file", path)
        try:
            said = json.loads(got.stdout, strict=False)
        except ValueError:
            said = {"error": got.stderr.strip() or f"bpftool ended with status {got.returncode}"}
        if got.returncode or "types" not in said:
            raise Refused(f"section .BTF: it is damaged: {said.get('error')}")
        self.types = {0: {"kind": "VOID", "name": ""}, **{it["id"]: it for it in said["types"]}}

    def of(self, number):
        if number not in self.types:
            raise Refused(f"section .BTF: type {number} isn't there, and there are {len(self.types)}")
        return self.types[number]

    def plain(self, number):
        """A type without names and qualifiers."""
        it = self.of(number)
        for _ in range(DEPTH):
            if it["kind"] not in NAMES_FOR:
                return it
            it = self.of(it["type_id"])
        raise Refused(f"section .BTF: type {number} is a name of itself")

    def size(self, number, depth=DEPTH):
        """How many bytes a type has; 0 where that isn't known, as of void."""
        it = self.plain(number)
        if it["kind"] == "PTR":
            return 8
        if it["kind"] == "ARRAY":
            if not depth:
                raise Refused(f"section .BTF: type {number} has itself as its element")
            return it["nr_elems"] * self.size(it["type_id"], depth - 1)
        return it.get("size", 0)

    def contexts(self):
        """By function: the name and the size of the structure that its first parameter points to."""
        found = {}
        for it in self.types.values():
            given = self.of(it["type_id"]).get("params") if it["kind"] == "FUNC" else None
            pointer = self.plain(given[0]["type_id"]) if given else {"kind": "VOID"}
            if pointer["kind"] == "PTR":
                pointed = self.plain(pointer["type_id"])
                found[it["name"]] = (pointed["name"], pointed.get("size", 0))
        return found

    def variables(self, section):
        """By the name of each variable of a section: the number of its type."""
        areas = [it for it in self.types.values() if it["kind"] == "DATASEC" and it["name"] == section]
        found = [self.of(it["type_id"]) for area in areas for it in area["vars"]]
        return {it["name"]: it["type_id"] for it in found if it["kind"] == "VAR"}

    def said(self, number):
        """What the members of a map's structure say, by their names."""
        said, members = {}, self.plain(number).get("members", [])
        if len(members) > MEMBERS:
            raise Refused(f"its structure has {len(members)} members, and no map has more than {MEMBERS}")
        for name, of in ((it["name"], it["type_id"]) for it in members):
            pointer = self.plain(of)
            inner = self.plain(pointer["type_id"]) if pointer["kind"] == "PTR" else None
            # __uint(name, n) is a pointer to an array of n, __type(name, t) one to a t.
            if inner is not None and inner["kind"] == "ARRAY" and name not in ("key", "value"):
                said[name] = inner["nr_elems"]
            elif inner is not None:
                said[f"{name}_size"] = self.size(pointer["type_id"])
            else:
                said[name] = None
        return said


@dataclass(frozen=True)
class Line:
    """A line of C: its text, its file as the compiler was given it, and its number."""

    text: str
    file: str
    number: int


class Lines:
    """By a section's name and a word: the line of C, and where CO-RE would change a word."""

    def __init__(self, types, data, words):
        """Of the bytes of .BTF, which have the texts, those of .BTF.ext, and how many words each section of code has."""
        self.words, self.lines, self.changed = words, {}, []
        try:
            head, at, size = struct.unpack_from("<4xI8xII", types)
            self.pool = types[head + at : head + at + size]
            (head,) = struct.unpack_from("<4xI", data)
            parts = struct.unpack_from(f"<{(head - 8) // 4}I", data, 8)
            for section, at, (_, file, line, place) in self.records(data, head, *parts[2:4]):
                if (text := self.text(line)).strip():
                    # The upper 22 bits are the line's number, the others its column.
                    self.lines.setdefault(section, {})[at] = Line(text, self.text(file), place >> 10)
            if len(parts) >= 6:
                self.changed = [(section, at) for section, at, _ in self.records(data, head, *parts[4:6])]
        except (struct.error, TypeError, ValueError) as error:
            raise Refused(f"section .BTF.ext: it is damaged: {error}") from error

    def text(self, at):
        """A text, which may have any bytes: those that are no text become blanks."""
        text = self.pool[at : self.pool.index(0, at)].decode(errors="replace")
        return text if text.isprintable() else "".join(it if it.isprintable() or it == "\t" else " " for it in text)

    def records(self, data, head, at, size):
        """The records of a part of .BTF.ext, each with its section's name, its word and its numbers."""
        if not size:
            return
        part = data[head + at : head + at + size]
        (step,), place = struct.unpack_from("<I", part), 4
        if step < RECORD or len(part) < size:
            raise ValueError(f"{len(part)} of {size} bytes of records of {step} bytes are there")
        while place < size:
            name, count = struct.unpack_from("<II", part, place)
            section, place = self.text(name), place + 8
            for _ in range(count):
                numbers = struct.unpack_from("<4I", part, place)
                place += step
                if section not in self.words:
                    continue
                if numbers[0] % 8 or numbers[0] // 8 >= self.words[section]:
                    raise ValueError(f"its records name byte {numbers[0]} of section {section}, which has {self.words[section]} words")
                yield section, numbers[0] // 8, numbers
