# Makes a small SEG-Y file and writes bytes into one, for examples/make and speed/, with bash and coreutils alone.
# Places count from 0 here, so byte B of a file is place B - 1.

# put FILE PLACE HEX: these bytes over those from the place on
put() {
    local escaped
    escaped=$(printf '%s' "$3" | sed 's/../\\x&/g')
    printf "$escaped" | dd of="$1" bs=1 seek="$2" conv=notrunc status=none
}

# zeros N: so many zero bytes
zeros() { head -c "$1" /dev/zero; }

# A textual header of 40 lines, each an EBCDIC C and 79 EBCDIC blanks.
ebcdic_header() {
    local line
    line=$(printf '\\xc3'; printf '\\x40%.0s' $(seq 79))
    for _ in $(seq 40); do printf "$line"; done
}

# survey FILE: 4332 bytes, big-endian, revision 1.0, 16-bit samples, two a trace, three traces
# on inline 10 and crosslines 21 to 23.
survey() {
    local file=$1 p start
    { ebcdic_header; zeros 400; zeros 732; } > "$file"
    put "$file" 3216 0fa0 # 3217-3218: 4000 microseconds
    put "$file" 3220 0002 # 3221-3222: two samples
    put "$file" 3224 0003 # 3225-3226: format 3
    put "$file" 3500 01   # 3501: revision 1
    put "$file" 3502 0001 # 3503-3504: fixed length
    for p in 1 2 3; do
        start=$((3600 + 244 * (p - 1)))
        put "$file" $((start + 4)) "$(printf %08x "$p")"
        put "$file" $((start + 36)) "$(printf %08x $((100 * p)))"
        put "$file" $((start + 114)) 0002
        put "$file" $((start + 116)) 0fa0
        put "$file" $((start + 180)) "$(printf %08x $((1000 * p)))"
        put "$file" $((start + 184)) "$(printf %08x 500)"
        put "$file" $((start + 188)) "$(printf %08x 10)"
        put "$file" $((start + 192)) "$(printf %08x $((20 + p)))"
    done
    put "$file" 3840 0001fffe
    put "$file" 4084 00030004
    put "$file" 4328 fffb0006
}
