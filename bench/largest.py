"""The largest lawful description, whose imports are calls and whose owners have as many imports and exports as may be."""
import json


def exports():
    return [{"name": f"e{j}", "at": 4 * j} for j in range(64)]


def description():
    code = {"words": ["00008067"] * 1024}
    compartments = [{
        "name": f"c{i}", "code": code, "globals": 8176,
        "imports": [{"as": f"i{j}", "call": f"c{(i * 7 + j) % 64}.e{j % 64}"} for j in range(128)],
        "quotas": [{"name": f"q{j}", "limit": 64} for j in range(16)], "keys": [13, 14, 15],
        "exports": exports()} for i in range(64)]
    libraries = [{
        "name": f"l{i}", "code": code,
        "imports": [{"as": f"i{j}", "library": f"l{(i * 5 + j) % 32}.e{j % 64}"} for j in range(128)],
        "exports": exports()} for i in range(32)]
    return {
        "firmware": "f", "ram": {"base": 2147483648, "size": 8388608},
        "devices": [{"name": f"d{i}", "kind": "uart", "base": 268435456 + 16 * i} for i in range(16)],
        "shared": [{"name": f"s{i}", "size": 64} for i in range(64)],
        "sealed": [{"name": f"k{i}", "type": 13, "bytes": "00" * 64} for i in range(64)],
        "compartments": compartments, "libraries": libraries,
        "threads": [{"name": "t", "entry": "c63.e63", "priority": 1, "stack": 256, "frames": 96}]}


def text():
    return json.dumps(description())
