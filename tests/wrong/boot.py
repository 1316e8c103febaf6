"""Machines that boot otherwise."""
from plants import wrong

MACHINES = [
    wrong("slot_unsealed", "boot leaves a call import unsealed",
          "law_boot::makes_stand", "the seal of each slot",
          ("def_boot/specs/Made.antt",
           "entry_cap p n r kind.Call = entry_cap_as memory_root n r r.base EXPORT_TYPE",
           "entry_cap p n r kind.Call = entry_cap_as memory_root n r r.base 0")),
    wrong("slot_of_a_root", "boot gives a device import all addresses",
          "law_boot::makes_stand", "the range of each entry",
          ("def_boot/specs/Made.antt",
           "entry_cap p n r kind.Device = entry_cap_as memory_root n r r.base 0",
           "entry_cap p n r kind.Device = root_cap memory_root (from_entry n)"),
          ("def_boot/specs/Made.antt",
           "specs.Derive.{derive,",
           "specs.Derive.{derive, root_cap,")),
    wrong("boot_range", "boot gives globals a granule more",
          "law_boot::makes_stand", "the range of each entry",
          ("def_boot/specs/Made.antt",
           "entry_cap p n r kind.Globals = entry_cap_as memory_root n r r.base 0",
           "entry_cap p n r kind.Globals = entry_cap_as memory_root n (record r { length = r.length + 8 "
           "}) r.base 0")),
]
