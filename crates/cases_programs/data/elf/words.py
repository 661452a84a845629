#!/usr/bin/env python3
"""Writes `sample` and `smallest` beside it, which are words of four bytes, the lowest byte first. The cases name a word by
its index."""

SMALLEST = """
464c457f 00010101 00000000 00000000                     0  e_ident
00f30002 00000001 00010000 00000034                     4  e_type and e_machine, e_version, e_entry, e_phoff
00000000 00000000 00200034 00000001 00000000            8  e_shoff, e_flags, sizes of headers, counts
00000001 00000054 00010000 00010000                    13  p_type, p_offset, p_vaddr, p_paddr
0000000c 0000000c 00000005 00000004                    17  p_filesz, p_memsz, p_flags, p_align
05d00893 00000513 00000073                             21  code
"""

SAMPLE = """
464c457f 00010101 00000000 00000000                     0  e_ident
00f30002 00000001 00010000 00000034                     4  e_type and e_machine, e_version, e_entry, e_phoff
00000114 00000000 00200034 00280003 00050007            8  e_shoff, e_flags, sizes of headers, counts, e_shstrndx
00000001 00000094 00010000 00010000                    13  the code: p_type, p_offset, p_vaddr, p_paddr
0000000c 0000000c 00000005 00000004                    17  p_filesz, p_memsz, p_flags, p_align
00000001 00000000 00020000 00020000                    21  memory of zeros
00000000 00000020 00000006 00000004
00000001 00000000 00030000 00030000                    29  the same
00000000 00000020 00000006 00000004
05d00893 00000513 00000073                             37  code
00000000 00000000 00000000 00000000                    40  symbols: st_name, st_value, st_size, the rest
00000001 00010000 0000000c 00010012                    44
00000006 00010004 00000000 00010020                    48
0000dead 0000beef                                      52  no whole symbol
69616d00 6261006e                                      54  names of symbols: main, ab
65742e00 2e007478 746d7973 2e006261 74727473 2e006261  56  names of sections
74736873 62617472 65642e00 5f677562 656e696c 73622e00  62
00000073                                               68
00000000 00000000 00000000 00000000 00000000           69  section 0: sh_name, sh_type, sh_flags, sh_addr, sh_offset,
00000000 00000000 00000000 00000000 00000000           74  sh_size, sh_link, sh_info, sh_addralign, sh_entsize
00000001 00000001 00000006 00010000 00000094           79  .text
0000000c 00000000 00000000 00000000 00000000
00000007 00000002 00000000 00000000 000000a0           89  .symtab
00000038 00000004 00000000 00000000 00000000
00000021 00000001 00000000 00000000 00000094           99  .debug_line
00000008 00000000 00000000 00000000 00000000
0000000f 00000003 00000000 00000000 000000d8          109  .strtab
00000008 00000000 00000000 00000000 00000000
00000017 00000003 00000000 00000000 000000e0          119  .shstrtab
00000034 00000000 00000000 00000000 00000000
0000002d 00000008 00000003 00020000 00000000          129  .bss
00000020 00000000 00000000 00000000 00000000
"""


def write(name, text):
    words = [word for line in text.splitlines() for word in line.split("  ")[0].split()]
    open(name, "wb").write(b"".join(int(word, 16).to_bytes(4, "little") for word in words))


write("smallest", SMALLEST)
write("sample", SAMPLE)
