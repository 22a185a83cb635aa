# The prototypes of include/varskumo.h as Rust declares them, for src/face.rs: second/build writes them.
function fail(what) { print "second/build: the header: " what >"/dev/stderr"; failed = 1; exit 2 }
function rust(parameter,    kind) {
    kind = parameter ~ /uint8_t/ ? "u8" : parameter ~ /uint32_t/ ? "u32" : parameter ~ /uint64_t/ ? "u64" : ""
    if (parameter ~ /size_t/) kind = "usize"
    if (kind == "") fail("'" parameter "' is no number and no pointer to numbers")
    return parameter ~ /[*[]/ ? (parameter ~ /const/ ? "*const " : "*mut ") kind : kind
}
BEGIN { print "unsafe extern \"C\" {" }
/^vsk_answer vsk_/ { text = ""; reading = 1 }
reading { text = text " " $0 }
reading && /;/ {
    reading = 0
    name = text; sub(/^ vsk_answer /, "", name); sub(/[(].*/, "", name)
    sub(/[^(]*[(]/, "", text); sub(/[)];.*/, "", text)
    count = split(text, parameters, ","); line = ""
    for (k = 1; k <= count; k++) line = line (k > 1 ? ", " : "") "_: " rust(parameters[k])
    print "    pub fn " name "(" line ") -> VskAnswer;"
    calls++
}
END { if (!failed && !calls) fail("no prototype was found"); if (!failed) print "}" }
