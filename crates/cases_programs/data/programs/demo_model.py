#!/usr/bin/env python3
"""The demonstration program of a size, worked out from its description alone: `demo_model.py SIZE..` prints a line for
each size, with the number of bytes of its code, the FNV-1a sum (32 bits) of them, and its first draws."""
import sys

M64 = (1 << 64) - 1
MUL = 6364136223846793005


def rotated(word, by):
    return ((word >> by) | (word << (32 - by) & 0xffffffff)) & 0xffffffff


def output(state):
    return rotated((((state >> 18) ^ state) >> 27) & 0xffffffff, state >> 59)


def seed_bytes(number, count):
    """What `seed_from_u64` of rand_core makes of a number: words of PCG32, each of the state after its step."""
    state, made = number, b""
    while len(made) < count:
        state = (state * MUL + 11634580027462260723) & M64
        made += output(state).to_bytes(4, "little")
    return made[:count]


class Pcg32:
    """Lcg64Xsh32 of rand_pcg."""

    def __init__(self, number):
        seed = seed_bytes(number, 16)
        self.increment = int.from_bytes(seed[8:], "little") | 1
        self.state = (int.from_bytes(seed[:8], "little") + self.increment) & M64
        self.step()

    def step(self):
        self.state = (self.state * MUL + self.increment) & M64

    def below(self, limit):
        word = output(self.state)
        self.step()
        return word % limit


REGISTERS = {"x0": 0, "ra": 1, "sp": 2, "t1": 6, "t2": 7, "s0": 8, "s1": 9,
             "a0": 10, "a1": 11, "a2": 12, "a3": 13, "a4": 14, "a7": 17}


def bits(number, low, count):
    return number >> low & (1 << count) - 1


def word_of(op, *args):
    """An instruction as a word (RISC-V unprivileged manual, RV32I)."""
    r = [REGISTERS.get(a, a) for a in args]
    if op == "addi":
        return bits(r[2], 0, 12) << 20 | r[1] << 15 | r[0] << 7 | 0x13
    if op == "lw":
        return bits(r[1], 0, 12) << 20 | r[2] << 15 | 2 << 12 | r[0] << 7 | 0x03
    if op == "sw":
        return bits(r[1], 5, 7) << 25 | r[0] << 20 | r[2] << 15 | 2 << 12 | bits(r[1], 0, 5) << 7 | 0x23
    if op == "lui":
        return bits(r[1], 0, 20) << 12 | r[0] << 7 | 0x37
    if op == "jalr":
        return bits(r[1], 0, 12) << 20 | r[2] << 15 | r[0] << 7 | 0x67
    if op == "jal":
        d = r[1]
        return (bits(d, 20, 1) << 31 | bits(d, 1, 10) << 21 | bits(d, 11, 1) << 20 | bits(d, 12, 8) << 12
                | r[0] << 7 | 0x6f)
    if op in ("beq", "bne", "blt"):
        d, funct = r[2], {"beq": 0, "bne": 1, "blt": 4}[op]
        return (bits(d, 12, 1) << 31 | bits(d, 5, 6) << 25 | r[1] << 20 | r[0] << 15 | funct << 12
                | bits(d, 1, 4) << 8 | bits(d, 11, 1) << 7 | 0x63)
    assert op == "ecall"
    return 0x73


def parsed(text):
    """Lines `LABEL:` or `op a,b,c`, separated by `;`. An operand `N(reg)` is two."""
    items = []
    for piece in text.split(";"):
        piece = piece.strip()
        while ":" in piece:
            label, piece = piece.split(":", 1)
            items.append(label.strip() + ":")
            piece = piece.strip()
        if piece:
            op, _, rest = piece.partition(" ")
            operands = []
            for a in rest.split(",") if rest else []:
                a = a.strip()
                if a.endswith(")"):
                    operands += a[:-1].split("(")
                else:
                    operands.append(a)
            items.append((op, operands))
    return items


def loop(n):
    high = (n + 2048) // 4096
    low = n - 4096 * high
    assert -2048 <= low <= 2047
    return f"lui s1,{high}; addi s1,s1,{low}; TOP: addi a0,x0,5; jal ra,f0; addi s1,s1,-1; bne s1,x0,TOP"


def functions(n):
    """Names and texts, in order; labels are a function's own, and other targets are functions."""
    draws = Pcg32(n)
    drawn = []
    for _ in range(32):
        a = draws.below(32)
        b = draws.below(32)
        drawn.append((a, b, 4 * draws.below(512)))
    main = ""
    for t in (1, 2, 3):
        main += (f"lui a0,{0x7d1}; addi a0,a0,-256; lui a1,{0x24 + 4 * t}; lui a2,{0x21}; addi a2,a2,{4 * t};"
                 "addi a3,x0,0; addi a4,a2,0; addi a7,x0,220; ecall; beq a0,x0,child;")
    main += loop(n) + ";"
    for t in (1, 2, 3):
        main += (f"W{t}: lui a0,{0x21}; addi a0,a0,{4 * t}; lw a2,0(a0); beq a2,x0,NEXT{t}; addi a1,x0,0;"
                 f"addi a3,x0,0; addi a7,x0,422; ecall; jal x0,W{t}; NEXT{t}:;")
    main += "addi a7,x0,94; addi a0,x0,0; ecall"
    listed = [("main", main), ("child", loop(n) + "; addi a7,x0,93; addi a0,x0,0; ecall")]
    for k, (a, b, o) in enumerate(drawn):
        listed.append((f"f{k}", "addi sp,sp,-16; sw ra,12(sp); sw s0,8(sp); addi s0,a0,-1; lui t1,32;"
                       f"lw t2,{o}(t1); addi t2,t2,1; sw t2,{o}(t1); blt s0,x0,END; addi a0,s0,0; jal ra,f{a};"
                       f"addi a0,s0,0; jal ra,f{b}; END: lw s0,8(sp); lw ra,12(sp); addi sp,sp,16; jalr x0,0(ra)"))
    return listed, drawn


def code(n):
    """The code's bytes, and name, address, size and first line of each function."""
    listed, drawn = functions(n)
    at, places, texts = 0x10000, {}, []
    for name, text in listed:
        items = parsed(text)
        places[name] = at
        texts.append((name, at, items))
        at += 4 * sum(type(i) is tuple for i in items)
    made, shown = b"", []
    for number, (name, start, items) in enumerate(texts):
        labels, here = dict(places), start
        for item in items:
            if type(item) is tuple:
                here += 4
            else:
                labels[item[:-1]] = here
        shown.append((name, start, here - start, 100 * number + 1))
        here = start
        for item in items:
            if type(item) is not tuple:
                continue
            op, operands = item
            args = []
            for a in operands:
                if a in labels:
                    args.append(labels[a] - here)
                elif a in REGISTERS:
                    args.append(a)
                else:
                    args.append(int(a))
            made += word_of(op, *args).to_bytes(4, "little")
            here += 4
    return made, shown, drawn


def fnv(data):
    total = 0x811c9dc5
    for byte in data:
        total = (total ^ byte) * 0x01000193 & 0xffffffff
    return total


if __name__ == "__main__":
    for size in sys.argv[1:]:
        made, shown, drawn = code(int(size))
        print(size, len(made), f"{fnv(made):08x}", drawn[0], drawn[31])
