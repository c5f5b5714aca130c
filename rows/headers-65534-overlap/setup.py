# The header of the smallest guest's file, and 65534 load headers of one byte each at rising places, but for the last, which is at the first.
import struct

header = bytearray(bytes.fromhex(
    "7f454c46010101000000000000000000" "0200f300010000005400010034000000" "00000000000000003400200001002800" "00000000"))
struct.pack_into("<I", header, 24, 0x10000)  # e_entry
struct.pack_into("<H", header, 44, 65534)  # e_phnum
places = [0x10000 + i for i in range(65534)]
places[-1] = 0x10000
with open("img", "wb") as image:
    image.write(header)
    for place in places:
        # p_type, p_offset, p_vaddr, p_paddr, p_filesz, p_memsz, p_flags, p_align
        image.write(struct.pack("<8I", 1, 0, place, 0, 0, 1, 7, 0))
