# Writes one of the two halves of a module's text, so that two processors compile it: the half of this number, 0 or 1.
#
#     awk -v half=0 -f scripts/unproved/halves.awk TEXT
#
# Each half has all constants and small functions, which can be put in line everywhere, and of the large functions every other stretch; the others it
# only declares. What is exported is in the first half.

BEGIN { small = 60; stretch = 20000 }

# A function is kept until it ends, where its length is known.
/^define .*}$/ { sub(/^define internal /, "define linkonce_odr hidden "); print; next }
/^define / { header = $0; body = ""; length_of = 0; in_function = 1; next }
in_function {
    body = body $0 "\n"
    length_of++
    if ($0 == "}") {
        in_function = 0
        written += length_of
        write_function(int(written / stretch) % 2 == half)
    }
    next
}
{ print }

function write_function(is_here) {
    if (header !~ /^define internal /) {
        is_here = half == 0
    } else if (length_of < small) {
        sub(/^define internal /, "define linkonce_odr hidden ", header)
        is_here = 1
    } else {
        sub(/^define internal /, "define hidden ", header)
    }
    if (is_here) {
        printf "%s\n%s", header, body
    } else {
        sub(/^define /, "declare ", header)
        sub(/ \{$/, "", header)
        print header
    }
}
