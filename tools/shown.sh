# For the scripts beside it: how they print names that others chose. A line for each text of standard input, which NUL
# bytes separate. Control characters, backslashes, and marks that can't be seen or turn a line are \xNN, \uNNNN and
# \u{NNNNN}, and so is each byte that is no UTF-8: what `audit` does with names.
shown() {
    od -An -v -t u1 | LC_ALL=C awk '
        { for (i = 1; i <= NF; i++) byte[count++] = $i + 0 }
        END {
            for (at = 0; at < count; at += size) {
                if (byte[at] == 0) { print ""; size = 1; continue }
                size = length_at(at)
                if (size == 0) { printf "\\x%02x", byte[at]; size = 1 }
                else if (code < 32 || code == 127 || code == 92) printf "\\x%02x", code
                else if (is_hidden(code)) printf code < 65536 ? "\\u%04x" : "\\u{%x}", code
                else for (i = 0; i < size; i++) printf "%c", byte[at + i]
            }
            if (count > 0 && byte[count - 1] != 0) print ""
        }
        # How many bytes the character at a place has, 0 if it is no UTF-8; its number is left in code.
        function length_at(at,   first, long, i) {
            code = first = byte[at]
            if (first < 128) return 1
            if (first < 194 || first > 244) return 0
            long = first < 224 ? 2 : first < 240 ? 3 : 4
            code = first % 2 ^ (7 - long)
            for (i = 1; i < long; i++) {
                if (at + i >= count || byte[at + i] < 128 || byte[at + i] > 191) return 0
                code = code * 64 + byte[at + i] - 128
            }
            if (long == 3 && (code < 2048 || code >= 55296 && code < 57344)) return 0
            return long == 4 && (code < 65536 || code > 1114111) ? 0 : long
        }
        function is_hidden(code) {
            return code >= 128 && code < 160 || code == 173 || code == 1564 || code == 6158 ||
                code >= 8203 && code < 8208 || code >= 8232 && code < 8239 || code >= 8288 && code < 8304 ||
                code == 65279 || code >= 65529 && code < 65532 || code >= 917504 && code < 921600
        }'
}
