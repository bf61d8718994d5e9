"""An object that clang made, whose source stands beside it: what readelf and llvm-objdump say of it."""
from pathlib import Path

from rows.case import Case

FILE = Path(__file__).parents[2] / "tests/drivers/test_rows/data/counter.o"


def cases():
    return [
        Case(
            "an object of clang",
            FILE.read_bytes(),
            {
                "parsed programs functions": """
                    program on_packet Xdp { frags: false, attach_type: Interface } at 6 0
                    program on_wake KProbe at 4 0
                    function tgid_of at 2 0 offset 0 slots 11
                    function count at 2 88 offset 88 slots 18
                    function on_wake at 4 0 offset 0 slots 13
                    function on_packet at 6 0 offset 0 slots 15
                """,
                "parsed license_and_version": "[71, 80, 76] None",
                "parsed maps": """
                    map .bss type 2 key 4 value 8 entries 1 flags 0 None symbol None data [0, 0, 0, 0, 0, 0, 0, 0]
                    map .rodata type 2 key 4 value 4 entries 1 flags 128 None symbol None data [7, 0, 0, 0]
                    map counts type 1 key 4 value 8 entries 64 flags 0 ByName symbol Some(11) data []
                    map tables type 12 key 4 value 4 entries 8 flags 0 None symbol Some(14) data []
                """,
                "parsed btf_defined_maps": """
                    map counts in 9 symbol 11 type 1 key 4:14 value 8:24 entries 64 flags 0 extra 0 ByName
                    map tables in 9 symbol 14 type 12 key 4:0 value 4:0 entries 8 flags 0 extra 0 None
                    inner in 0 symbol 0 type 2 key 4:14 value 4:14 entries 4 flags 0 extra 0 None
                """,
                "parsed records": """
                    records tgid_of of 8 and 16 bytes: 0 of 2, 0/55296 2/57350 6/0 7/59394 9/60418 of 12
                    records count of 8 and 16 bytes: 11 of 2, 11/63488 13/0 14/65551 18/67590 20/69634 21/70663 27/72705 of 12
                    records on_wake of 8 and 16 bytes: 0 of 1, 0/77873 1/77837 4/79886 7/77837 10/79878 11/81929 12/82945 of 7
                    records on_packet of 8 and 16 bytes: 0 of 1, 0/86016 2/88070 4/0 5/90119 8/90118 9/92197 10/92177 11/92186 12/92162 13/94209 of 10
                """,
                "parsed sections": """
                    section 13 .BTF
                    section 15 .BTF.ext
                    section 12 .bss
                    section 17 .llvm_addrsig
                    section 9 .maps
                    section 14 .rel.BTF
                    section 16 .rel.BTF.ext
                    section 3 .rel.text
                    section 5 .relkprobe/wake_up_new_task
                    section 7 .relxdp
                    section 8 .rodata
                    section 1 .strtab
                    section 18 .symtab
                    section 2 .text
                    section 4 kprobe/wake_up_new_task
                    section 10 license
                    section 11 version
                    section 6 xdp
                """,
                "parsed type_relocations": """
                    in Ok(".text")
                    0 at 24 type 33 Ok("0:1") FieldByteOffset
                """,
            },
        )
    ]
