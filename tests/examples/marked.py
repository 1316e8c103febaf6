"""Rows of tests/ once more, with the mark » before the place of the fault: what explain_rows.py compares with.

The marks were put by hand from docs/use: before the first character of a line that no token allows, or the token that
doesn't fit 128 bits or 64 characters (A1); the first word (A2); the first token that isn't of the form, or behind the
last where one is missing (A3); the number, or the label out of reach (A4); the later label (A5); the label that isn't
there (A6); the register (A7); the directive that passes the limit (A8); the import's name (L3); the library's first
bytes (L4); and likewise in scripts and policies.
"""

SOURCES = [
    # A1
    "nop # »é", "nop»\r", "add a0»; a1", "li a0, 1»a", "li a0, 5»-3", "li a0, a»-3", "li a0, 0»X10", "li a0, -0»x10",
    "li a0, 0»x", "li a0, 0»xg", "li a0, »-", "».", "a».b:", "»@", ".»9",
    "li a0, »340282366920938463463374607431768211456", "li a0, »0x100000000000000000000000000000000",
    "li a0, »-170141183460469231731687303715884105729", "»" + "a" * 65 + ":", "nop»\x0b",
    # A2
    "»frob a0", "»csr a0", "»cspecialrw a0, a1", "»cclc a0, 0(a1)", "»ccsc a0, 0(a1)", "»NOP", "»5", "», nop", "»:",
    "»(", "»)", "».frob", "».add a0, a1, a2", "»text", "a: »b: nop", "a: »5", "»1: nop", "»cli a0, 1", "».TEXT",
    # A3
    "nop »a0", "add a0, a1»", "add a0, a1, »5", "add a0 »a1, a2", "addi a0, a1, »a2", "li a0»", "li »5, a0",
    "lw a0, 4»",
    "lw a0, »(a1)", "lw a0, 4(a1) »a2", "go: lw a0, 4(a1) »a2", "sw a0, 4(»5)", "beq a0, a1»", "jal »done", "j»", "cimport a0, »5",
    "cla a0, »4", "clg a0, »4", "mv a0, »czero", "mv a0, »c00", "mv a0, »c32", ".word»", ".word »x", "».byte 1",
    "».zero 4", "».align 4", ".text »5", "a: mv»: nop", "fence »5", "cret »a0", "csetbounds a0, a1, »5",
    ".data\n»nop",
    # what other assemblers take
    "»ret", "»call f", "jal »f", "»jr ra", "»la a0, f", "»la a0, x", "lw a0, »(ca1)", "»not a0, a1", "»neg a0, a1",
    "»seqz a0, a1", "»snez a0, a1", "»bgt a0, a1, f", "»ble a0, a1, f", "»blez a0, f", "»bgez a0, f", "»bltz a0, f",
    "»bgtz a0, f", "j 1»f", "»cincoffset ca0, ca1, a2", "»cincoffset ca0, ca1, 16", "csetbounds ca0, ca1, »16",
    "»csetoffset ca0, ca1, a2", "»cgetoffset a0, ca1", "»clcbase ca0, ca1", "»lc ca0, 0(ca1)", "»csrr a0, mcause",
    "».globl f", "».section .text", "».half 258", ".ascii »\"A\"", ".word »f", "».equ N, 5", "».set N, 5", "».macro m",
    "li a0, »'A'", "li a0, 16»+16", "nop »// text", "nop»; nop",
    # A4
    "addi a0, a1, »2048", "addi a0, a1, »-2049", "csetboundsimm a0, a1, »4096", "csetboundsimm a0, a1, »-1",
    "slli a0, a1, »32", "lw a0, »2048(a1)", "sw a0, »-2049(a1)", "lui a0, »1048576", "lui a0, »-524289",
    "beq a0, a1, »3", "beq a0, a1, »4096", "beq a0, a1, »-4098", "j »1048576", "li a0, »4294967296",
    "li a0, »4294967301", "li a0, »-2147483649", ".word »4294967296", ".word »4294967301", "addi a0, a1, »4294967301",
    "li a0, »-170141183460469231731687303715884105728",
    ".data\n.byte »256", ".data\n.byte »-129", ".data\n.zero »1048577", ".data\n.align »3", ".data\n.align »0",
    ".data\n.align »8192",
    # A7
    "mv »c16, a0", "add »x31, a0, a1", "lw a0, 0(»c16)", "beqz »x16, 4",
    # the least line, and then the least number
    "addi x16, a0, »4096", ".data\n»addi x16, a0, 5000", "frob 1»a", "nop 5 # »é", "nop\n»frob\nli a0, 1a",
    "addi a0, a0, »4096\nfrob", "nop\n\nmv »c16, a0\nadd",
    # labels and sizes
    "a: nop\n»a: nop", "a: nop\n.data\n»a: .word 1", "a:\nb:\n»a: j b\nb:", "j »nowhere",
    "beq a0, a1, »d\n.data\nd: .word 1", "clg a0, »main\nmain:", "cla a0, »d\n.data\nd:",
    ".data\n.zero 1048576\n».byte 1", ".data\n.zero 1048575\n».word 1", ".data\n.zero 1048573\n.align 4096\n».byte 0",
    "j »nowhere\na:\na:", "a:\n»a: j nowhere", ".data\n.zero 1048576\n».byte 0\n.text\nj nowhere",
    "j »nowhere\n.data\n.zero 1048576\n.byte 0", "a:\n»a: beq a0, a1, b\n.data\n.zero 4\n.text\nb:\na:",
    "beq a0, a1, »to\n" + "nop\n" * 1023 + "to:\n", "to:\n" + "nop\n" * 1025 + "bnez a0, »to\n",
    # rows.py, links.py
    "main: nop\n»frob a0\n", "main: cimport ct0, »nosuch\n", "main: cimport ct0, nosuch\n»frob a0\n",
    "main: j nowhere\ncimport ct0, »nosuch\n", "start: j »nowhere\n", "digit: cret\n.data\n».byte 0\n",
    "digit: j »nowhere\n.data\n.byte 0\n", "digit: cimport ct0, »uart\n", "put: j »nowhere\n", "cimport ct0, »no\n",
]
SCRIPTS = [
    "»uart0 2 65\n", "2 uart0 65\n»\n", "2 uart0 65\n3 uart0 66»", "2 » uart0 65\n", "2 uart0 65» \n", "2»\tuart0 65\n",
    "2 uart0 »65\r\n", "»02 uart0 65\n", "»0 uart0 65\n", "»4000000001 uart0 65\n", "2 uart0 »256\n", "2 uart0»\n",
    "5 uart0 1\n»4 uart0 1\n", "2 »clock 65\n", "2 »uart1 65\n", "5 uart0 1\n»4 uart1 1\n", "5 uart0 1\n4 uart0 »256\n",
    "2 »uart1 1\n1\n", "4000000000 pins 255\n»5 pins 1\n", "1 uart0 »01\n", "»0 uart0 1\n", "»4000000001 uart0 1\n",
    "1 uart0 »256\n", "1 uart0 1»", "1 uart0 » 1\n", "2 uart0 1\n»\n", "1 uart0 1\n1 »clock 1\n",
    "2 uart0 1\n»1 nobody 1\n1\n", "1 »nobody 1\n1\n",
]
POLICIES = [
    "device uart0 only app»", "device uart0 » only app\n", "device uart0 only»\n", "device uart»\u00e9 only app\n",
    "quota app 64\n»\n", "quota app »064\n", "quota nobody »2199023255552\n", "call »driver only app\n",
    "data »a.b.c\n",
    "device »uart9 only app\n", "device »App! only app\n", "quota »t 64\n", "service »switch only app\n",
    "call »hex.digit only app\n", "apart app »hex\n", "quota app 1\ndevice »nobody only app\nfrob\n",
    "»frob\n", "quota app 64\ndevice »uart9 only app\n",
]

# What the fault of a description is about, where more than one thing was put into it.
MEMBERS = {
    "description_F2_21": ".devices[0].kind", "description_F6_23": ".sweep",
    "description_F7_9": ".compartments[0].imports[2].call", "open": "", "empty": "",
    "description_array": "", "nowhere": ".compartments[0].imports[0].device", "sweep": ".sweep",
    "check_no_description": ".sweep",
}
# What no JSON text is, and where it stops being one.
NO_JSON = ['"»\udcff"', "{»"]

# The fields that are altered in images, by the row's name.
FIELDS = {
    "cut_8": "number of devices", "cut_100": "device 0: name", "cut_411": "thread t: frames", "cut_0": "begin",
    "cut_7": "begin", "longer": "end", "begin": "begin", "version": "begin", "quantum": "quantum",
    "heap": "base of the heap", "globals": "compartment app: base of its globals",
    "service": "compartment app: slot 0, switch", "device": "compartment app: slot 1, uart",
    "rights": "compartment app: slot 1, uart", "offset": "compartment app: export 0: offset",
    "entry": "compartment app: export 0: entry", "compartment": "thread t: compartment that it enters",
    "export": "thread t: compartment that it enters", "no_sweep": "sweep rate",
    "upgraded_globals": "compartment app: base of its globals", "17_threads": "number of threads",
    "65_threads_of_version_2": "number of threads", "byte_order_mark": "begin",
    "export_before_thread": "compartment app: export 0: offset", "slot_before_thread": "compartment app: slot 1, uart",
    "key_named_otherwise": "library lib: slot 0: name", "key_of_a_library": "library lib: slot 0, key13",
    "sealed_0": "sealed object secret: number of bytes", "sealed_17": "sealed object secret: number of bytes",
}
