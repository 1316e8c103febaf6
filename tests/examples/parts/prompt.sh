# Part of try.sh: the debugger's prompt.
# asked COMMAND..: what the prompt writes on these commands in the sample packets
asked() {
    printf '%s\n' "$@" | inside packets step.py packets.json 200 packets.script --prompt
}

# The call in step 54 enters logger, whose store is step 57; the return is step 59.
expect "step.py, next over a call" "step 60: t is at parser.s:27 parse+120: clbu a0, 1(cs0)" \
    "$(asked "break parser.s:26" continue next quit | tail -2 | head -1)"
expect "step.py, finish" "step 60: t is at parser.s:27 parse+120: clbu a0, 1(cs0)" \
    "$(asked "break logger.put" continue finish quit | tail -2 | head -1)"
expect "step.py, back" "step 52: t is at parser.s:25 parse+112: cimport ct2, switch" \
    "$(asked "break logger.put" continue "back 3" quit | tail -2 | head -1)"
expect "step.py, threads" "    t runs at net.s:3 main, 1 frames" "$(asked threads quit | tail -2 | head -1)"
# parse keeps its byte at 80000420, 75, in step 16.
expect "step.py, a watch" "watch: 80000420 was 00000000 and is 0000004b, by step 16
step 17: t is at parser.s:6 parse+12: cimport ca0, buffer" "$(asked "watch 80000420" continue quit | tail -3 | head -2)"
expect "step.py, breaks" "    logger.put 800001d0" "$(asked "break logger.put" break quit | tail -2 | head -1)"
