# Part of try.sh: script.py.
# text LINE..: the script of a text of these lines
text() {
    printf '%s\n' "$@" | inside packets script.py
}

expect "script.py, gateway" "$(cat "$samples/gateway/gateway.script")" "$(inside gateway script.py gateway.input)"
expect "script.py, a text" "300 eth0 104
300 eth0 105
300 eth0 10" "$(text '@300 eth0 "hi\n"')"
expect "script.py, escapes" "1 u 0
1 u 255
1 u 34
1 u 92
1 u 35
1 u 9
1 u 195
1 u 169
1 u 16" "$(text '# none' '' '@1 u "\0\xff\"\\#\t" "é" 0x10 # a comment')"
expect "script.py, steps" "5 u 1
7 u 2
9 u 3
10 pins 255
19 u 4
20 u 5" "$(text '@20 u 5' '@5/2 u 1 2 3' '@+10 u 4' '@10 pins 255')"
wrong=("@0 u 1:a step is 1 to 4000000000" "@4000000000/1 u 1 2:a step is 1 to 4000000000" "@1 u 256:a byte is 0 to 255"
    "@1 u:bytes are wanted" 'u 1:@STEP DEVICE is wanted first' '@1 u "a:no byte and no text is written so: "a'
    '@1 u "\q":\q stands for nothing' '@1 u 1x:no byte and no text is written so: 1x')
for row in "${wrong[@]}"; do
    expect "script.py, ${row%%:*}" "line 2: ${row#*:}
status 2" "$(text "" "${row%%:*}")"
done
