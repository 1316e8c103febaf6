#!/usr/bin/env python3
"""Worked rows of descriptions: for each fault and each part where it may come one that has it, and what is lawful.

    descriptions.py OUT     writes the cases that cases.py tells of

A row is a description with one of every part in which one text, which stands in it, is another. The places were worked
out by hand: a part's word, its index in the outer list, the index in the inner one. A lawful one is read as far as the
file of its library's code, which isn't there.
"""
import json

from cases import case, image, lines, report, source
from firmwares import WHOLE

NUMBERS = {}


def altered(name, old, new, wanted):
    assert old in WHOLE, old
    NUMBERS[name] = NUMBERS.get(name, 0) + 1
    case(f"{name}_{NUMBERS[name]}", ["audit", "{}"], WHOLE.replace(old, new), wanted + "\n")


def faults(number, rows):
    for old, new, place in rows:
        altered(f"description_F{number}", old, new, f"refused 4 description F{number} {place}")


def lawful(rows):
    for old, new in rows:
        altered("description_lawful", old, new, "refused 2 read nohex.s")


# ---- one of every part

whole = json.loads(WHOLE)
whole["libraries"][0]["code"] = source("hex_of_whole.s", ["digit: cret"])
case("description_whole", ["audit", "{}"], json.dumps(whole), lines(report(whole)))
case("description_whole_image", ["image", "{}"], json.dumps(whole), image(whole))

# ---- small ones

for name, data, wanted in (("no_text", b'"\xff"', "F1 firmware 0 0"), ("array", "[]", "F2 firmware 0 0")):
    case("description_" + name, ["audit", "{}"], data, f"refused 4 description {wanted}\n")

# ---- each fault

# A member is missing, or not of its kind.
faults(2, [
    ('"firmware":"f",', '', 'firmware 0 0'),
    ('"ram":{"base":2147483648,"size":4096}', '"ram":[]', 'firmware 0 0'),
    ('"firmware":"f"', '"firmware":"f","quantum":null', 'firmware 0 0'),
    ('"size":4096', '"size":4096.0', 'ram 0 0'),
    ('"kind":"uart"', '"kind":"disk"', 'device 0 0'),
    ('"name":"pool","size":64', '"name":"pool"', 'shared 0 0'),
    ('"0aff"', '"0af"', 'sealed 0 0'),
    ('"ff82b283"', '"FF82b283"', 'compartment 0 0'),
    ('{"words":["00000297","ff82b283"]}', '{}', 'compartment 0 0'),
    ('{"words":', '{"file":"a","words":', 'compartment 0 0'),
    ('"device":"uart0","rights":"W"', '"device":"uart0"', 'import 0 0'),
    ('"call":"app.main"', '"call":"app.main","library":"hex.digit"', 'import 0 3'),
    ('{"as":"put","call":"app.main"}', '{"as":"put"}', 'import 0 3'),
    ('"limit":96', '"limit":-1', 'quota 0 0'),
    ('"keys":[13]', '"keys":[13,"14"]', 'key 0 1'),
    ('"at":0', '"at":"main"', 'export 0 0'),
    ('"file":"nohex.s"', '"file":7', 'library 0 0'),
    ('{"as":"self","library":"hex.digit"}', '7', 'limport 0 0'),
    ('"name":"digit","at":"digit"', '"name":"digit"', 'lexport 0 0'),
    ('"priority":1', '"priority":"1"', 'thread 0 0'),
])
# A member that isn't listed.
faults(3, [
    ('"firmware":"f"', '"firmware":"f","heap":0', 'firmware 0 0'),
    ('"size":4096', '"size":4096,"end":0', 'ram 0 0'),
    ('"kind":"uart"', '"kind":"uart","size":16', 'device 0 0'),
    ('"name":"pool"', '"name":"pool","bytes":""', 'shared 0 0'),
    ('"type":13', '"type":13,"size":2', 'sealed 0 0'),
    ('{"words":', '{"base":0,"words":', 'compartment 0 0'),
    ('"sealed":"seed"', '"sealed":"seed","rights":"R"', 'import 0 2'),
    ('"call":"app.main"', '"call":"app.main","rights":7', 'import 0 3'),
    ('"limit":96', '"limit":96,"used":0', 'quota 0 0'),
    ('"at":0', '"at":0,"base":0', 'export 0 0'),
    ('{"file":"nohex.s"}', '{"file":"nohex.s"},"globals":0', 'library 0 0'),
    ('"as":"self"', '"as":"self","call":"app.main"', 'limport 0 0'),
    ('"at":"digit"', '"at":"digit","args":0', 'lexport 0 0'),
    ('"frames":2', '"frames":2,"base":0', 'thread 0 0'),
])
# A name that isn't of the form.
faults(4, [
    ('"firmware":"f"', '"firmware":"F"', 'firmware 0 0'),
    ('"name":"uart0"', '"name":"0uart"', 'device 0 0'),
    ('"name":"pool"', '"name":"po-ol"', 'shared 0 0'),
    ('"name":"seed"', '"name":""', 'sealed 0 0'),
    ('"name":"app"', '"name":"aPp"', 'compartment 0 0'),
    ('"as":"token"', '"as":"_token"', 'import 0 2'),
    ('"name":"q"', '"name":"qqqqqqqqqqqqqqqqqqqqqqqqqqqqqqqqq"', 'quota 0 0'),
    ('"name":"main"', '"name":"ma in"', 'export 0 0'),
    ('"name":"hex"', '"name":"héx"', 'library 0 0'),
    ('"as":"self"', '"as":"9"', 'limport 0 0'),
    ('"name":"digit"', '"name":"digit."', 'lexport 0 0'),
    ('"name":"t"', '"name":"t~"', 'thread 0 0'),
])
# A name twice in its space.
faults(5, [
    ('"base":268435456}', '"base":268435456},{"name":"uart0","kind":"gpio","base":268435472}', 'device 1 0'),
    ('{"name":"pool","size":64}', '{"name":"pool","size":64},{"name":"pool","size":64}', 'shared 1 0'),
    ('{"name":"seed","type":13,"bytes":"0aff"}',
     '{"name":"seed","type":13,"bytes":"0aff"},{"name":"seed","type":13,"bytes":"0aff"}', 'sealed 1 0'),
    ('"at":0}]}', '"at":0}]},{"name":"app","code":{"words":[]}}', 'compartment 1 0'),
    ('"as":"token"', '"as":"switch"', 'import 0 2'),
    ('"as":"token"', '"as":"box"', 'import 0 2'),
    ('"name":"q"', '"name":"switch"', 'quota 0 0'),
    ('"name":"q"', '"name":"box"', 'quota 0 0'),
    ('"as":"token"', '"as":"key13"', 'key 0 0'),
    ('"keys":[13]', '"keys":[12,12]', 'key 0 1'),
    ('{"name":"main","at":0}', '{"name":"main","at":0},{"name":"main","at":0}', 'export 0 1'),
    ('"name":"hex"', '"name":"app"', 'library 0 0'),
    ('{"as":"self","library":"hex.digit"}',
     '{"as":"self","library":"hex.digit"},{"as":"self","library":"hex.digit"}', 'limport 0 1'),
    ('{"name":"digit","at":"digit"}', '{"name":"digit","at":"digit"},{"name":"digit","at":"digit"}', 'lexport 0 1'),
    ('"name":"t"', '"name":"hex"', 'thread 0 0'),
])
# A number or a length outside its limit; among them keys from 2^32 on, which are two.
faults(6, [
    ('"firmware":"f"', '"firmware":"f","version":3', 'firmware 0 0'),
    ('"firmware":"f"', '"firmware":"f","sweep":63', 'firmware 0 0'),
    ('"firmware":"f"', '"firmware":"f","quantum":1000001', 'firmware 0 0'),
    ('"base":2147483648', '"base":2147483656', 'ram 0 0'),
    ('"size":4096', '"size":240', 'ram 0 0'),
    ('"size":4096', '"size":8388624', 'ram 0 0'),
    ('"base":2147483648', '"base":4294963200', 'ram 0 0'),
    ('"base":268435456', '"base":4294967296', 'device 0 0'),
    ('"size":64', '"size":0', 'shared 0 0'),
    ('"type":13', '"type":12', 'sealed 0 0'),
    ('"0aff"', '""', 'sealed 0 0'),
    ('"code":{"words"', '"globals":1048577,"code":{"words"', 'compartment 0 0'),
    ('"keys":[13]', '"keys":[13,14,15,16]', 'compartment 0 0'),
    ('"limit":96', '"limit":2147483648', 'quota 0 0'),
    ('"keys":[13]', '"keys":[16]', 'key 0 0'),
    ('"keys":[13]', '"keys":[4294967296,4294967297]', 'key 0 0'),
    ('"at":0', '"at":0,"args":7', 'export 0 0'),
    ('"at":0', '"at":0,"stack":32753', 'export 0 0'),
    ('"file":"nohex.s"', '"file":""', 'library 0 0'),
    ('"priority":1', '"priority":16', 'thread 0 0'),
    ('"stack":256', '"stack":264', 'thread 0 0'),
    ('"frames":2', '"frames":97', 'thread 0 0'),
    ('"firmware":"f"', '"firmware":"f","version":2,"sweep":65537', 'firmware 0 0'),
])
# A reference to nothing.
faults(7, [
    ('"device":"uart0"', '"device":"uart9"', 'import 0 0'),
    ('"shared":"pool"', '"shared":"uart0"', 'import 0 1'),
    ('"sealed":"seed"', '"sealed":"pool"', 'import 0 2'),
    ('"call":"app.main"', '"call":"app.other"', 'import 0 3'),
    ('"call":"app.main"', '"call":"hex.digit"', 'import 0 3'),
    ('"as":"digit","library":"hex.digit"', '"as":"digit","library":"app.main"', 'import 0 4'),
    ('"as":"self","library":"hex.digit"', '"as":"self","library":"hex"', 'limport 0 0'),
    ('"entry":"app.main"', '"entry":"appmain"', 'thread 0 0'),
])
# Rights that aren't listed for the kind.
faults(8, [
    ('"rights":"W"', '"rights":"RC"', 'import 0 0'),
    ('"rights":"W"', '"rights":"WR"', 'import 0 0'),
    ('"rights":"RWC"', '"rights":"C"', 'import 0 1'),
    ('"rights":"RWC"', '"rights":""', 'import 0 1'),
])
# A service that isn't listed.
faults(9, [
    ('"call":"app.main"', '"service":"switch"', 'import 0 3'),
    ('"call":"app.main"', '"service":"Yield"', 'import 0 3'),
])
# An address where none may be.
faults(10, [
    ('"base":2147483648', '"base":65536', 'ram 0 0'),
    ('"base":268435456', '"base":268435464', 'device 0 0'),
    ('"base":268435456', '"base":69616', 'device 0 0'),
    ('"base":268435456', '"base":2147487728', 'device 0 0'),
    ('"base":268435456}', '"base":268435456},{"name":"uart1","kind":"uart","base":268435456}', 'device 1 0'),
])

# Several faults at once: the least number, where it comes first.
for number, *row in [
    (2, '"kind":"uart"', '"kind":"disk","size":16', 'device 0 0'),
    (2, '"limit":96}],"keys":[13]', '"limit":2147483648}],"keys":[16,"13","14"]', 'key 0 1'),
    (3, '"frames":2', '"frames":97,"base":0', 'thread 0 0'),
    (4, '"firmware":"f"', '"firmware":"F","quantum":0', 'firmware 0 0'),
    (4, '"limit":96}],"keys":[13],"exports":[{"name":"main"',
     '"limit":2147483648}],"keys":[13,13],"exports":[{"name":"Main"', 'export 0 0'),
    (5, '"base":268435456}', '"base":268435456},{"name":"uart0","kind":"uart","base":4294967296}', 'device 1 0'),
    (7, '"rights":"W"', '"rights":"C"},{"as":"two","service":"switch"},{"as":"three","call":"app"', 'import 0 2'),
]:
    faults(number, [row])

# Texts with what may stand in their place.
lawful([
    ('"firmware":"f"', '"firmware":"f"'),
    ('"at":0', '"at":4294967296'),
    ('"keys":[13]', '"keys":[13,14,15]'),
    ('"as":"self"', '"as":"switch"'),
    ('"name":"q"', '"name":"qqqqqqqqqqqqqqqqqqqqqqqqqqqqqqqq"'),
    ('"as":"uart"', '"as":"app"'),
    ('"at":0', '"at":0,"posture":"disabled","args":0,"stack":32752,"passes":"data"'),
    ('"at":"digit"', '"at":2,"posture":"inherit"'),
    ('"base":268435456', '"base":65520'),
    ('"base":268435456', '"base":4294967280'),
    ('"base":268435456', '"base":2147487744'),
    ('"firmware":"f"', '"firmware":"f","sweep":64,"quantum":1000000,"version":1'),
    ('"call":"app.main"', '"service":"yield"'),
    ('"call":"app.main"', '"service":"token_free"'),
    ('"firmware":"f"', '"firmware":"f","version":2,"sweep":65536'),
    ('"frames":2}', '"frames":2},{"name":"u","entry":"app.main","priority":0,"stack":256,"frames":96}'),
])
