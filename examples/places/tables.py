"""The members of a description's parts, what stands at each, and its limits (docs/use/description.md)."""

MOST_BYTES = 1_048_576
MOST_STACK = 32_752
RAM_END = 4_294_967_280
NATIVE = (0x00010000, 0x1000)  # base and length of the native entries
UNIT = 16  # of regions' bases and sizes, and the size of a device

# A member: its name, whether it must be there, its kind, and what the kind takes: the least and the greatest number,
# a list's or a text's length, the texts that are taken.
TEXT, CHOICE, NUMBER, MULTIPLE, LIST = "a text", "one of its texts", "a number", "a number of multiples", "a list"
OBJECT, BYTES, OFFSET, CODE = "an object", "pairs of lower-case hexadecimal digits", "a label or an offset", "code"

NAME = ("name", True, TEXT, ())
AT = ("at", True, OFFSET, ())
CODE_ROW = ("code", True, CODE, ())
MEMBERS = {
    "firmware": [
        ("firmware", True, TEXT, ()), ("version", False, NUMBER, (1, 2)), ("sweep", False, NUMBER, (1, 65_536)),
        ("ram", True, OBJECT, ()), ("quantum", False, NUMBER, (1, 1_000_000)), ("devices", False, LIST, (16,)),
        ("shared", False, LIST, (64,)), ("sealed", False, LIST, (64,)), ("compartments", False, LIST, (64,)),
        ("libraries", False, LIST, (32,)), ("threads", False, LIST, (64,))],
    "ram": [("base", True, MULTIPLE, (0, RAM_END)), ("size", True, MULTIPLE, (256, 67_108_864))],
    "device": [NAME, ("kind", True, CHOICE, ("uart", "timer", "gpio")), ("base", True, NUMBER, (0, 2 ** 32 - 1))],
    "shared": [NAME, ("size", True, NUMBER, (1, MOST_BYTES))],
    "sealed": [NAME, ("type", True, NUMBER, (13, 15)), ("bytes", True, BYTES, (1, MOST_BYTES))],
    "compartment": [
        NAME, CODE_ROW, ("globals", False, NUMBER, (0, MOST_BYTES)), ("imports", False, LIST, (128,)),
        ("quotas", False, LIST, (16,)), ("keys", False, LIST, (3,)), ("exports", False, LIST, (64,))],
    "import": [("as", True, TEXT, ())] + [(form, False, TEXT, ()) for form in
                                          ("device", "shared", "sealed", "call", "service", "library")],
    "quota": [NAME, ("limit", True, NUMBER, (0, 2 ** 31 - 1))],
    "key": [],
    "export": [
        NAME, AT, ("posture", False, CHOICE, ("enabled", "disabled")), ("args", False, NUMBER, (0, 6)),
        ("stack", False, NUMBER, (0, MOST_STACK)), ("passes", False, CHOICE, ("capabilities", "data"))],
    "library": [NAME, CODE_ROW, ("imports", False, LIST, (128,)), ("exports", False, LIST, (64,))],
    "limport": [("as", True, TEXT, ()), ("library", True, TEXT, ())],
    "lexport": [NAME, AT, ("posture", False, CHOICE, ("inherit", "enabled", "disabled"))],
    "thread": [
        NAME, ("entry", True, TEXT, ()), ("priority", True, NUMBER, (0, 15)),
        ("stack", True, MULTIPLE, (256, MOST_STACK)), ("frames", True, NUMBER, (1, 96))],
}

# The lists of parts: of the description, and of its owners.
OUTER = {"device": "devices", "shared": "shared", "sealed": "sealed", "compartment": "compartments",
         "library": "libraries", "thread": "threads"}
INNER = {"import": ("compartments", "imports"), "quota": ("compartments", "quotas"), "key": ("compartments", "keys"),
         "export": ("compartments", "exports"), "limport": ("libraries", "imports"),
         "lexport": ("libraries", "exports")}

FORMS = ["device", "shared", "sealed", "call", "service", "library"]
RIGHTS = {"device": ["R", "W", "RW"], "shared": ["R", "W", "RW", "RC", "WC", "RWC"]}
SERVICES = ["yield", "sleep", "wait", "wake", "allocate", "free", "remaining", "token_key", "token_new", "token_open",
            "token_free"]
CODE_MEMBERS = ["words", "file"]

# What differs from version to version: the sweep rate, RAM's greatest size, how many threads.
VERSIONS = {1: ((64, 64), 8_388_608, 16), 2: ((1, 65_536), 67_108_864, 64)}
