# shellcheck shell=bash disable=SC2016,SC2154 # the dollars are those of a waveform; of run, which sources this
# Names that mean something else in a waveform or a drawing, and drawings that are too large to be read.

# In a waveform a name is one word, no keyword, no range of bits, and no other's of its list; a single bit's may end in its place.
wave_names() {
    cat >"$room/plan" <<'END'
aag 9 9 0 2 0
2
4
6
8
10
12
14
16
18
2
4
i0 $end
i1 [7:0]
i2 a b
i3 a_b
i4 bus[7:0]
i5 bus[3]
i6 i7
i8 _end
o0 a b
o1 a_b
END
    printf '$var wire 1 %s %s $end\n' '!' _end '"' '(7:0)' '#' a_b '$' a_b_i3 % 'bus(7:0)' '&' 'bus[3]' "'" i7 '(' i7_i7 ')' _end_i8 \
        '*' a_b + a_b_o1 >"$room/names"
    try trace --vcd "$room/plan" /dev/null
    grep '^\$var' "$room/out" >"$room/told"
    holds "names in a waveform" diff "$room/names" "$room/told"
}

drawn_names() {
    printf 'aag 1 1 0 0 0\n2\ni0 &lt;b&gt; "q" \\n\n' >"$room/plan"
    try draw "$room/plan"
    holds "names in a drawing" grep -qxF '  v1 [label="i0\n&amp;lt;b&amp;gt; \"q\" \\n", shape=box];' "$room/out"
}

# 300 nodes are drawn, whatever they are; 301 are not.
large_drawings() {
    { printf 'aag 150 100 50 149 0 1 0\n' && seq 2 2 200 && seq 202 2 300 | sed 's/$/ 0/' && yes 2 | head -n 150; } >"$room/plan"
    try draw "$room/plan"
    holds "300 nodes" test 0 = "$(cat "$room/status")"
    sed -i '1s/.*/aag 150 100 50 149 0 1 1/; $a 2' "$room/plan"
    misuses "$room/plan has 301 inputs, latches, gates, outputs, bad states and constraints; a drawing of more than 300 is hardly read: --large draws it" \
        draw "$room/plan"
    try draw --large "$room/plan"
    holds "301 nodes" test 0 = "$(cat "$room/status")"
}

wave_names
drawn_names
large_drawings
