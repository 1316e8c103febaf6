"""Machines that call, return or unwind unclean."""
from plants import wrong

MACHINES = [
    wrong("hands_over_registers", "a call hands over the caller's c8 and c9",
          "law_events::routines_clean", "CleanEntry.zero, tagged",
          ("def_step/specs/Routines.antt",
           "(entered i (thread s t) callee export high (callee_start i (thread s t) t callee export "
           "high))",
           "(record (entered i (thread s t) callee export high (callee_start i (thread s t) t callee "
           "export high)) {\n"
           "      registers =\n"
           "          slice_set (slice_set (entered i (thread s t) callee export high (callee_start i "
           "(thread s t) t callee export high)).registers 8 (register (thread s t) 8)) 9\n"
           "          (register (thread s t) 9);\n"
           "    })"),
          ("def_step/specs/Routines.antt",
           "use Rattle.std.specs.Prelude.{",
           "use Rattle.std.specs.Prelude.{slice_set, ")),
    wrong("six_arguments", "six arguments go over whatever the export declares",
          "law_events::routines_clean", "CleanEntry.zero (10 + arguments ≤ n)",
          ("def_machine/specs/Frames.antt",
           "(nat_lt n (gate_for e.gates export).args)",
           "(nat_lt n 6)")),
    wrong("tags_pass", "a plain export's arguments keep their tags",
          "law_events::routines_clean", "CleanEntry.arguments: LetsThrough.plainly",
          ("def_machine/specs/Frames.antt",
           "cap_passed_by e export c = cond (root_of e export).passes c (untagged c)",
           "cap_passed_by e export c = c")),
    wrong("saves_c9_as_c8", "a call saves c9 as c8",
          "law_events::routines_clean", "CleanEntry.frames",
          ("def_step/specs/Routines.antt",
           "(entered i (thread s t) callee export high (callee_start i (thread s t) t callee export "
           "high))",
           "(record (entered i (thread s t) callee export high (callee_start i (thread s t) t callee "
           "export high)) {\n"
           "      frames =\n"
           "          record (pushed_frame (thread s t) callee export high) { c8 = register (thread s "
           "t) 9 }\n"
           "          ∷ (thread s t).frames;\n"
           "    })"),
          ("def_step/specs/Routines.antt",
           "specs.Frames.{switched,",
           "specs.Frames.{pushed_frame, switched,")),
    wrong("outer_frames_go", "a call drops the frames below",
          "law_events::routines_clean", "CleanEntry.frames",
          ("def_machine/specs/Frames.antt",
           "  frames = pushed_frame old callee export high ∷ old.frames;",
           "  frames = pushed_frame old callee export high ∷ [];")),
    wrong("other_export", "a callee begins at another export's address",
          "law_events::routines_clean", "CleanEntry.code",
          ("def_machine/specs/Frames.antt",
           "(gate_for i.entries.gates export).code;\n"
           "  back = made_cap i 0;",
           "(gate_for i.entries.gates callee).code;\n"
           "  back = made_cap i 0;")),
    wrong("stack_to_the_top", "a callee gets its stack up to the frame's top",
          "law_events::routines_clean", "CleanEntry.stack, end_is",
          ("def_step/specs/Switch.antt",
           "(new_top base (cap_address (register caller 2)))",
           "(frame_top caller.frames)"),
          ("def_step/specs/Switch.antt",
           "-- ---- what it comes to",
           "abbrev pub frame_top : List Frame → ℕ\n"
           "frame_top [] = 0\n"
           "frame_top (f ∷ fs) = f.top\n"
           "\n"
           "-- ---- what it comes to"),
          ("def_step/specs/Switch.antt",
           "-- the top of the innermost frame\n"
           "abbrev pub frame_top : List Frame → ℕ\n"
           "frame_top [] = 0\n"
           "frame_top (f ∷ fs) = f.top\n",
           "")),
    wrong("stack_past_c2", "a callee's stack ends a unit above c2",
          "law_events::routines_clean", "CleanEntry.end_is (IsCalleeEnd.under)",
          ("def_step/specs/Switch.antt",
           "new_top base address = base + room_of (address - base)",
           "new_top base address = base + room_of (address - base) + 16")),
    wrong("stack_not_asked", "the stack that an export asks for isn't asked",
          "law_events::routines_clean", "CleanEntry.asked",
          ("def_step/specs/Switch.antt",
           "    if nat_lt (high - base) (gate_for e.gates export).stack then NoStack else Enters export "
           "high",
           "    Enters export high")),
    wrong("no_depth", "a thread may have any number of frames",
          "law_events::events_confined", "Confined: Bounded.deep",
          ("def_step/specs/Switch.antt",
           "    if length caller.frames == most then TooDeep\n"
           "    else with_room",
           "    with_room")),
    wrong("posture_of_callee", "a return leaves the callee's posture",
          "law_events::routines_clean", "CleanReturn.posture",
          ("def_machine/specs/Frames.antt",
           "  posture = posture_through old.posture (cap_seal f.c1) 0 f.c1.shadow.source;",
           "  posture = old.posture;")),
    wrong("stack_left", "a return leaves the callee's stack",
          "law_events::routines_clean", "CleanReturn.stack",
          ("def_machine/specs/Frames.antt",
           "    switched i s t f.top\n"
           "    (left_by i s (thread s t) f (g ∷ gs) (answer i (thread s t) f 10) (answer i (thread s "
           "t) f 11))\n",
           "    switched i s t (stack_base i t)\n"
           "    (left_by i s (thread s t) f (g ∷ gs) (answer i (thread s t) f 10) (answer i (thread s "
           "t) f 11))\n")),
    wrong("registers_left", "a return leaves the callee's c4",
          "law_events::routines_clean", "CleanReturn.zero",
          ("def_machine/specs/Frames.antt",
           "plain 0 ∷ plain 0 ∷ keep f.c2 ∷ keep f.c3 ∷ plain 0 ∷",
           "plain 0 ∷ plain 0 ∷ keep f.c2 ∷ keep f.c3 ∷ register old 4 ∷")),
    wrong("frame_stays", "an unwind leaves its frame standing",
          "law_events::routines_clean", "CleanReturn.frames",
          ("def_machine/specs/Frames.antt",
           "    switched i s t f.top (left_by i s (thread s t) f (g ∷ gs) (plain value) (plain 0))\n",
           "    switched i s t f.top (left_by i s (thread s t) f (f ∷ g ∷ gs) (plain value) (plain 0))\n")),
    wrong("mark_lost", "a return takes the mark of the caller's frame, whose handler may be entered again",
          "law_events::routines_clean", "CleanReturn.frames; handlers_enter_once: HandlesOnce",
          ("def_machine/specs/Frames.antt",
           "    (left_by i s (thread s t) f (g ∷ gs) (answer i (thread s t) f 10) (answer i (thread s "
           "t) f 11))\n",
           "    (left_by i s (thread s t) f (record g { handling = false } ∷ gs) (answer i (thread s t) "
           "f 10) (answer i (thread s t) f 11))\n")),
    wrong("unwind_answers_7", "an unwind answers 7",
          "law_history::calls_clean", "CleanFrom.unwinds: Answers minus_one",
          ("def_step/specs/Handlers.antt",
           "    else unwound i s t (f ∷ fs)",
           "    else ended_with i s t 7 (f ∷ fs)")),
    wrong("clears_too_much", "a call clears the stack above c2, up to the frame's top",
          "law_integrity::integrity_kept", "ClearsForCall.high",
          ("def_step/specs/Routines.antt",
           "    (switched i s t high\n"
           "    (entered",
           "    (switched i s t (frame_top (thread s t).frames)\n"
           "    (entered")),
]
