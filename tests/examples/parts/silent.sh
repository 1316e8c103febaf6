# Part of try.sh: step.py --refused, --usage and --coverage.
# gateway OPTION STATEMENT..: what an option writes of the sample gateway after statements of sed to its description
gateway() {
    sed -e "" "${@:2}" "$samples/gateway/gateway.json" > "$scratch/gateway.json"
    inside gateway step.py "$scratch/gateway.json" 2000 gateway.script "$1"
}

for what in refused usage coverage; do
    same "step.py, what is $what" "gateway.$what" "$(gateway "--$what")"
done
# Three frames are radio, parser and app: none is left for the vault, which the first command calls.
few=$(gateway --refused -e 's/"frames": 4/"frames": 3/' | head -1)
expect "step.py, a call without a frame" "   128 rx in app: switch of vault.session at gateway_app.s:22 \
opens+16 answers -12 (the thread has no more frames)" "$few"
deep=$(gateway --refused -e 's/"stack": 32/"stack": 240/' | head -1)
expect "step.py, a call without stack" "   117 rx in parser: switch of app.command at gateway_parser.s:28 \
hand+16 answers -11 (less stack is left than the export asks for)" "$deep"
# The call of parse is step 78, by run.txt; that of command, step 117, wants 240 bytes, and 208 are left.
# A key takes 16 bytes of the quota; then 16 more aren't there for a token.
small=$(gateway --refused -e 's/"limit": 64/"limit": 24/' | head -1)
expect "step.py, a token without quota" "   151 rx in vault: token_new at gateway_vault.s:19 has+20 \
answers -2 (the quota's limit would be passed)" "$small"
expect "step.py, nothing refused" "nothing was refused" "$(inside packets step.py packets.json 200 packets.script --refused | head -1)"
keys=$(inside tokens step.py tokens.json 200 | grep -o 'counter.q, [kt][a-z]* n[0-9]*\( of key n[0-9]*\)*' | sort -u)
expect "step.py, a key and its tokens" "counter.q, key n1
counter.q, token n2 of key n1" "$keys"
# A handler wants 80 bytes of stack: with csp at the stack's base there are none. The load is the third step of parse.
mkdir "$scratch/room"
sed 's/^parse:/&\n    cgetbase a0, csp\n    csetaddr csp, csp, a0\n    clw a0, 0(t0)/' "$samples/gateway/gateway_parser.s" > "$scratch/room/gateway_parser.s"
cp "$samples"/gateway/gateway_{app,logger,radio,text,vault}.s "$samples"/gateway/gateway.{json,script} "$scratch/room"
room=$(cd "$scratch/room" && python3 "$scripts/step.py" gateway.json 2000 gateway.script --refused | head -1)
expect "step.py, a handler without room" "    81 rx in parser: trap at gateway_parser.s:6 parse+8, capability: \
tag, register ct0: 0 bytes of stack are left, and 80 wanted; the frame is unwound, radio is answered -1" "$room"
