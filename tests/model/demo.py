"""The generated firmware, by docs/use/run.md."""


def source(y, index, last):
    """A compartment's lines."""
    size = 8 * (1 + y // 256 % 32)
    call = [] if last else ["cimport ct1, next", "cimport ct2, switch", "cjalr cra, ct2"]
    return ["go: cincaddrimm csp, csp, -16", "csc cra, 8(csp)", "cimport ca0, q", f"li a1, {size}",
            "cimport ct2, allocate", "cjalr cra, ct2", "csc ca0, 0(csp)", *call, "clc ca1, 0(csp)", "cimport ca0, q",
            "cimport ct2, free", "cjalr cra, ct2", "cimport ct0, uart", f"li a0, {index}", "csb a0, 0(ct0)",
            "clc cra, 8(csp)", "cincaddrimm csp, csp, 16", "cret"]


def compartment(y, index, last):
    following = [] if last else [{"as": "next", "call": f"n{index + 1}.go"}]
    return {"name": f"n{index}", "code": {"file": f"n{index}.s"}, "globals": 16 * (1 + y % 64),
            "imports": [{"as": "uart", "device": "uart0", "rights": "W"}, {"as": "allocate", "service": "allocate"},
                        {"as": "free", "service": "free"}, *following],
            "quotas": [{"name": "q", "limit": 4096}],
            "exports": [{"name": "go", "at": "go", "args": 1, "stack": 64,
                         "passes": "data" if y >= 2 ** 31 else "capabilities"}]}


def firmware(number):
    """The description, and the lines of its sources by their files' names."""
    count, x, owners, sources = 2 + number % 63, number, [], {}
    for index in range(count):
        x = (x * 1664525 + 1013904223) % 2 ** 32
        owners.append(compartment(x, index, index == count - 1))
        sources[f"n{index}.s"] = source(x, index, index == count - 1)
    threads = [{"name": name, "entry": "n0.go", "priority": 1, "stack": 8192, "frames": count + 1} for name in "ab"]
    return {"firmware": "demo", "quantum": 50, "ram": {"base": 2147483648, "size": 1048576},
            "devices": [{"name": "uart0", "kind": "uart", "base": 268435456}], "compartments": owners,
            "threads": threads}, sources
