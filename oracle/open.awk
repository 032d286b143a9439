# Opens one file of the upstream Rust for the oracle: private items and fields become public, and
# the calls of five routines go to `module`. Writes the changed text to standard output and a line
# "kind count" per kind of change to the file `counts`.

function opened(kind) {
    count[kind]++
    return "pub "
}

function fail(reason) {
    print "open.awk: " reason > "/dev/stderr"
    failed = 1
    exit 1
}

/^impl .* for / { in_trait = 1 }
/^(pub )?struct [A-Za-z0-9]+ \{/ { in_struct = 1 }
/^\}/ { in_trait = 0; in_struct = 0 }

/^(struct|const|type) / { $0 = opened("items") $0 }
/^fn / { $0 = opened("functions") $0 }
/^    fn / && !in_trait { sub(/^    /, "    " opened("functions")) }
/^    [a-z_0-9]+: / && in_struct { sub(/^    /, "    " opened("fields")) }
/^pub struct [A-Za-z0-9]+\([A-Z]/ { sub(/\(/, "(" opened("fields")) }

{ text = text $0 "\n" }

function at(i) {
    return substr(text, i, 1)
}

# The place of the bracket that belongs to the one at `i`, going by `step` (1 or -1).
function partner(i, step,   depth) {
    for (; i >= 1 && i <= length(text); i += step) {
        if (at(i) == "(") depth += step
        if (at(i) == ")") depth -= step
        if (depth == 0) return i
    }
    fail("a bracket without a partner")
}

# Rewrites the method call whose dot stands at `dot` as a call of `module::routine`.
function rewrite(dot, method, routine,   last, first, receiver, open, close_, rest) {
    last = dot - 1
    while (at(last) ~ /[ \n]/) last--
    if (at(last) == ")") {
        first = partner(last, -1)
        if (at(first - 1) ~ /[A-Za-z0-9_]/) fail("the receiver of ." method " is itself a call")
        receiver = substr(text, first + 1, last - first - 1)
    } else {
        first = last
        while (at(first - 1) ~ /[A-Za-z0-9_.]/) first--
        receiver = substr(text, first, last - first + 1)
    }
    open = dot + length(method) + 1
    close_ = partner(open, 1)
    rest = substr(text, open + 1, close_ - open - 1)
    if (rest != "") rest = ", " rest
    text = substr(text, 1, first - 1) "crate::" module "::" routine "(" receiver rest ")" \
        substr(text, close_ + 1)
}

function redirect(method, routine,   dot) {
    while ((dot = index(text, "." method "(")) > 0) {
        rewrite(dot, method, routine)
        count[routine]++
    }
}

END {
    if (failed) exit 1
    redirect("sin", "sine")
    redirect("cos", "cosine")
    redirect("sin_cos", "sine_cosine")
    redirect("atan2", "arctangent")
    redirect("hypot", "hypotenuse")
    printf "%s", text
    kinds = split("items functions fields sine cosine sine_cosine arctangent hypotenuse", kind, " ")
    for (k = 1; k <= kinds; k++) print kind[k], count[kind[k]] + 0 > counts
}
