#!/usr/bin/env python3
"""Compares the words that the program assembles and makes with those of GNU binutils for RISC-V.

usage: compare_words.py PROGRAM [SEED]

Every instruction at the edges of its fields and some thousand random ones go through `PROGRAM assemble` and through the
first assembler `riscv64-*-as` or `riscv32-*-as` on the machine. So does the text that `PROGRAM emit-asm` writes of each
graph in examples/, against the words of `PROGRAM emit-image`. Prints a line for each word that differs, and last
'N words agree, M differ'. Where no such assembler is installed it says so, and compares nothing.
"""

import glob
import os
import random
import shutil
import struct
import subprocess
import sys
import tempfile

HEAD = 24

REGISTERS = [0, 1, 15, 16, 31]
IMMEDIATES = [-2048, -1, 0, 1, 2047]
SHIFTS = [0, 1, 15, 16, 31]
UPPER = [0, 1, 0x80000, 0xFFFFF]
BRANCHES = [-4096, -2048, -12, -2, 0, 2, 8, 2046, 2048, 4094]
JUMPS = [-1048576, -2048, -176, -2, 0, 2, 48, 2046, 2048, 4096, 1048574]

ON_REGISTERS = "add sub sll slt sltu xor srl sra or and mul mulh mulhsu mulhu div divu rem remu".split()
ON_IMMEDIATE = "addi slti sltiu xori ori andi".split()
BY_NUMBER = "slli srli srai".split()
LOADS = "lb lh lw lbu lhu jalr".split()
STORES = "sb sh sw".split()
ON_BRANCH = "beq bne blt bge bltu bgeu".split()


def edges():
    """Every instruction at the edges of its fields: ours, and how binutils writes it."""
    rows = []
    for rd in REGISTERS:
        for rs1 in REGISTERS:
            for rs2 in REGISTERS:
                rows += [(f"{name} x{rd}, x{rs1}, x{rs2}", None) for name in ON_REGISTERS]
            for number in IMMEDIATES:
                rows += [(f"{name} x{rd}, x{rs1}, {number}", None) for name in ON_IMMEDIATE]
                rows += [(f"{name} x{rd}, {number}(x{rs1})", None) for name in LOADS + STORES]
            rows += [(f"{name} x{rd}, x{rs1}, {number}", None) for name in BY_NUMBER for number in SHIFTS]
            rows += [branch(name, rd, rs1, offset) for name in ON_BRANCH for offset in BRANCHES]
        rows += [(f"{name} x{rd}, {number}", None) for name in ("lui", "auipc") for number in UPPER]
        rows += [jump(rd, offset) for offset in JUMPS]
    return rows + [("ecall", None), ("ebreak", None)]


def branch(name, rs1, rs2, offset):
    return f"{name} x{rs1}, x{rs2}, {offset}", f"{name} x{rs1}, x{rs2}, . + {offset}"


def jump(rd, offset):
    return f"jal x{rd}, {offset}", f"jal x{rd}, . + {offset}"


def random_rows(chance, count):
    rows = []
    for _ in range(count):
        rd, rs1, rs2 = (chance.randrange(32) for _ in range(3))
        kind = chance.randrange(7)
        if kind == 0:
            rows.append((f"{chance.choice(ON_REGISTERS)} x{rd}, x{rs1}, x{rs2}", None))
        elif kind == 1:
            rows.append((f"{chance.choice(ON_IMMEDIATE)} x{rd}, x{rs1}, {chance.randint(-2048, 2047)}", None))
        elif kind == 2:
            rows.append((f"{chance.choice(BY_NUMBER)} x{rd}, x{rs1}, {chance.randrange(32)}", None))
        elif kind == 3:
            rows.append((f"{chance.choice(LOADS + STORES)} x{rd}, {chance.randint(-2048, 2047)}(x{rs1})", None))
        elif kind == 4:
            rows.append(branch(chance.choice(ON_BRANCH), rs1, rs2, 2 * chance.randint(-2048, 2047)))
        elif kind == 5:
            rows.append((f"{chance.choice(('lui', 'auipc'))} x{rd}, {chance.randrange(1 << 20)}", None))
        else:
            rows.append(jump(rd, 2 * chance.randint(-(1 << 19), (1 << 19) - 1)))
    return rows


def assembler():
    """The assembler of binutils and its copier of sections, where they are installed."""
    for folder in os.environ.get("PATH", "").split(os.pathsep):
        for path in sorted(glob.glob(os.path.join(folder, "riscv*-as"))):
            copier = path[: -len("as")] + "objcopy"
            if shutil.which(copier):
                return path, copier
    return None


def words_of_binutils(tools, rows, folder):
    source, made, flat = (os.path.join(folder, name) for name in ("a.s", "a.o", "a.bin"))
    with open(source, "w") as file:
        file.write(".option norvc\n.option norelax\n.text\n")
        file.writelines((other or ours) + "\n" for ours, other in rows)
    subprocess.run([tools[0], "-march=rv32im", "-mabi=ilp32", "-o", made, source], check=True)
    subprocess.run([tools[1], "-O", "binary", "-j", ".text", made, flat], check=True)
    with open(flat, "rb") as file:
        return file.read()


def shown(line):
    """How binutils writes a line of a printed text: targets from where they stand, and a fence by its word."""
    name, operands = line.split(" ", 1) if " " in line else (line, "")
    parts = operands.split(", ")
    if name in ON_BRANCH or name == "jal":
        return f"{name} {', '.join(parts[:-1])}, . + {parts[-1]}"
    if name == "fence":
        rd, rs1, bits = int(parts[0][1:]), int(parts[1][1:]), int(parts[2])
        return f".word {bits << 20 | rs1 << 15 | rd << 7 | 0x0F}"
    return line


def written(program, mode, graph):
    run = subprocess.run([program, mode, graph], stdout=subprocess.PIPE, check=False)
    if run.returncode != 0:
        sys.exit(f"{mode} {graph} failed: {run.stdout.decode()}")
    return run.stdout


def words_of_ours(program, rows, folder):
    source = os.path.join(folder, "a.asm")
    with open(source, "w") as file:
        file.write(".image 1\n.stride 32\n.params 0\n.results 0\n")
        file.writelines(ours + "\n" for ours, _ in rows)
    run = subprocess.run([program, "assemble", source], stdout=subprocess.PIPE, check=False)
    if run.returncode != 0:
        sys.exit(f"the program refused: {run.stdout.decode()}")
    return run.stdout[HEAD:]


def compared(rows, ours, theirs):
    """How many words agree, and how many don't; the latter are printed."""
    agree = 0
    differ = 1 if len(ours) != len(theirs) else 0
    if differ:
        print(f"{len(ours)} bytes, not {len(theirs)}")
    for row, one, other in zip(rows, struct.iter_unpack("<I", ours), struct.iter_unpack("<I", theirs)):
        if one == other:
            agree += 1
        else:
            differ += 1
            print(f"{row}: {one[0]:#010x}, not {other[0]:#010x}")
    return agree, differ


def main():
    program = os.path.abspath(sys.argv[1])
    seed = int(sys.argv[2]) if len(sys.argv) > 2 else 1
    tools = assembler()
    if tools is None:
        print("no assembler of GNU binutils for RISC-V is installed: nothing was compared")
        return 0
    rows = edges() + random_rows(random.Random(seed), 5000)
    graphs = sorted(glob.glob(os.path.join(os.path.dirname(os.path.abspath(__file__)), "..", "examples", "*.dg")))
    agree = differ = 0
    with tempfile.TemporaryDirectory() as folder:
        ours = words_of_ours(program, rows, folder)
        theirs = words_of_binutils(tools, rows, folder)
        agree, differ = compared([row for row, _ in rows], ours, theirs)
        for graph in graphs:
            lines = written(program, "emit-asm", graph).decode().splitlines()[4:]
            theirs = words_of_binutils(tools, [(line, shown(line)) for line in lines], folder)
            same, other = compared(lines, written(program, "emit-image", graph)[HEAD:], theirs)
            agree, differ = agree + same, differ + other
    print(f"{agree} words agree, {differ} differ")
    return 1 if differ else 0


sys.exit(main())
