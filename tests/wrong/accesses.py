"""Machines whose loads and stores do what they may not."""
from plants import wrong

MACHINES = [
    wrong("failed_load", "a load is carried out though a check fails",
          "law_truly::steps_do_no_more", "FailsTrap",
          ("def_step/specs/Accesses.antt",
           "    (first_failed (access_checks (access_of i) x y (access_address (access_of i) x)))\n"
           "    (accessed",
           "    (if (access_of i).loads then None else first_failed (access_checks (access_of i) x y "
           "(access_address (access_of i) x)))\n"
           "    (accessed")),
    wrong("failed_store", "a store is carried out though a check fails",
          "law_truly::steps_do_no_more", "FailsTrap",
          ("def_step/specs/Accesses.antt",
           "    (first_failed (access_checks (access_of i) x y (access_address (access_of i) x)))\n"
           "    (accessed",
           "    (if not (access_of i).loads then None else first_failed (access_checks (access_of i) x "
           "y (access_address (access_of i) x)))\n"
           "    (accessed")),
    wrong("load_past_bounds", "a load is held to no bounds of its capability",
          "law_history::accesses_licensed", "IsUseAt.inside, under UsesReach.access",
          ("def_step/specs/Accesses.antt",
           "    ∷ (has x load_data, capability_trap LOAD_CODE a.by)\n"
           "    ∷ (is_range_inside x at (at + a.width), capability_trap BOUNDS_CODE a.by)\n",
           "    ∷ (has x load_data, capability_trap LOAD_CODE a.by)\n"
           "    ∷ (true, capability_trap BOUNDS_CODE a.by)\n")),
    wrong("store_past_bounds", "a store is held to no bounds of its capability",
          "law_integrity::integrity_kept", "IsStored.authority (IsAuthority.low, high)",
          ("def_step/specs/Accesses.antt",
           "capability_trap STORE_CAPABILITY_CODE a.by)\n"
           "    ∷ (is_range_inside x at (at + a.width), capability_trap BOUNDS_CODE a.by)\n",
           "capability_trap STORE_CAPABILITY_CODE a.by)\n"
           "    ∷ (true, capability_trap BOUNDS_CODE a.by)\n")),
    wrong("load_sealed", "an access goes through a sealed capability",
          "law_history::accesses_licensed", "IsUseAt.unsealed",
          ("def_step/specs/Accesses.antt",
           "    ∷ (is_unsealed x, capability_trap SEAL_CODE a.by)\n"
           "    ∷ (has x load_data",
           "    ∷ (has x load_data")),
    wrong("loads_whole", "a load takes nothing from the capability that it gives, whatever LM and LG say",
          "law_history::events_attenuate", "Attenuates.no_store, no_mutable, no_global, no_capture",
          ("def_step/specs/Accesses.antt",
           "then filtered_in ram gs (attenuated x (loaded_cap gs (at - ram)))",
           "then filtered_in ram gs (loaded_cap gs (at - ram))")),
    wrong("lm_ignored", "a load through a capability without LM takes nothing",
          "law_history::events_attenuate", "Attenuates.no_store, no_mutable",
          ("def_words/specs/Loaded.antt",
           "(if has by load_mutable then [] else store_data ∷ load_mutable ∷ [])",
           "[]")),
    wrong("lg_ignored", "a load through a capability without LG takes nothing of what is unsealed",
          "law_history::events_attenuate", "Attenuates.no_global, no_capture",
          ("def_words/specs/Loaded.antt",
           "++ (if has by load_global then [] else global ∷ load_global ∷ [])",
           "++ []")),
    wrong("sealed_loses", "a sealed capability loses SD when it is loaded without LG",
          "law_words::loads_attenuate", "SameSeal",
          ("def_words/specs/Loaded.antt",
           "    else (if has by load_global then [] else global ∷ [])",
           "    else (if has by load_global then [] else global ∷ store_data ∷ [])")),
    wrong("sl_ignored", "a local capability is stored with its tag without SL",
          "law_history::events_attenuate", "IsStoredThrough.local",
          ("def_words/specs/Loaded.antt",
           "    if c.tag && not (has c global) && not (has by store_local) then untagged c else c",
           "    c")),
    wrong("load_next_granule", "a load of a capability gives the next granule's, which may lie out of view",
          "law_history::events_attenuate", "LoadsAttenuate: the granule where the access begins",
          ("def_step/specs/Accesses.antt",
           "then filtered_in ram gs (attenuated x (loaded_cap gs (at - ram)))",
           "then filtered_in ram gs (attenuated x (loaded_cap gs (at + 8 - ram)))")),
    wrong("load_out_of_view", "a load of plain bytes gives the bytes of the granule before",
          "law_secrecy::steps_are_secret", "GoesByView",
          ("def_step/specs/Accesses.antt",
           "else integer (widened a (loaded gs (at - ram) a.width))",
           "else integer (widened a (loaded gs (at - ram - 8) a.width))")),
    wrong("store_wide", "a plain store of bytes writes eight",
          "law_integrity::integrity_kept", "IsStored.rest",
          ("def_step/specs/Accesses.antt",
           "else stored gs (at - ram) a.width (cap_address y)",
           "else stored gs (at - ram) 8 (cap_address y)")),
]
