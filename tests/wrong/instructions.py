"""Machines whose instructions do more, or other, than they may."""
from plants import wrong

MACHINES = [
    wrong("root_authority", "accesses are checked against the root, so that csetbounds and candperm protect nothing",
          "law_truly::steps_do_no_more", "FailsTrap; in `step_checks` too: IsUseAt.inside, allows",
          ("def_step/specs/Instructions.antt",
           "abbrev pub instructed : Platform",
           "abbrev pub used_as : Image → Class → Cap → Cap\n"
           "used_as i class.Access x = with_address (made_cap i x.shadow.root) (cap_address x)\n"
           "used_as i _ x = x\n"
           "\n"
           "abbrev pub instructed : Platform"),
          ("def_step/specs/Instructions.antt",
           "    (carried_out (class_of i) i (operands_of i).to (operand s t (operands_of i).first)\n",
           "    (carried_out (class_of i) i (operands_of i).to (used_as b.image (class_of i) (operand s "
           "t (operands_of i).first))\n"),
          ("def_step/specs/Instructions.antt",
           "use Rattle.def_words.specs.Capability.{integer,",
           "use Rattle.def_words.specs.Capability.{with_address, integer,"),
          ("def_step/specs/Instructions.antt",
           "use Rattle.def_machine.specs.Image.{Image, root}",
           "use Rattle.def_machine.specs.Image.{Image, root, made_cap}")),
    wrong("any_key_unseals", "an instruction unseals by a key of another type, a token too",
          "law_words::seals_need_keys", "IsUnsealing.inside; tokens_opened: StaysShut",
          ("def_words/specs/Capability.antt",
           "    && is_inside key (cap_address key) && (cap_seal c == cap_address key))",
           "    && is_inside key (cap_address key) && not false)")),
    wrong("posture_on", "every integer instruction turns interrupts on",
          "law_truly::steps_do_no_more", "OnlyItsRegister.posture",
          ("def_step/specs/Instructions.antt",
           "  pcc = raised a.pcc 4;\n"
           "  posture = a.posture;\n"
           "  granules = a.space.granules;",
           "  pcc = raised a.pcc 4;\n"
           "  posture = interrupts_on;\n"
           "  granules = a.space.granules;"),
          ("def_step/specs/Instructions.antt",
           "specs.State.{State, Frame, register, thread}",
           "specs.State.{State, Frame, register, thread, interrupts_on}")),
    wrong("two_registers", "an instruction clears c5 beside the register that it names",
          "law_truly::steps_do_no_more", "OnlyItsRegister.registers",
          ("def_step/specs/Instructions.antt",
           "  threads = slice_set s.threads t (jumped (thread s t) d.pcc d.posture d.to d.value);",
           "  threads = slice_set s.threads t (jumped (jumped (thread s t) d.pcc d.posture 5 (plain 0)) "
           "d.pcc d.posture d.to d.value);")),
    wrong("posture_of_sentry", "a disabling return sentry leaves interrupts on",
          "law_truly::shared_rules_are_plain", "IsPostureThrough",
          ("def_words/specs/Seals.antt",
           "else if kind == RETURN_DISABLE then record { off = true; source = kept }",
           "else if kind == RETURN_DISABLE then record { off = false; source = 0 }")),
]
