# Prints the public functions of a crate, in the order of its sources: each `pub fn` of src/lib.rt or passed on there, each method of a public type, and each function for C.
# The first file is src/lib.rt, which is read twice: first for its types and for what it passes on.

FNR == 1 { files++; own = "" }
# `pub use a::f;` or `pub use a::{f, g};`, on one line or more
files == 1 && /^pub use / { uses = "" }
files == 1 && (/^pub use / || uses != "") {
    uses = uses " " $0
    if (uses ~ /;/) {
        gsub(/^ *pub use |[ {};]/, " ", uses)
        parts = split(uses, part, /[ ,]+/)
        for (i = 1; i <= parts; i++) { sub(/.*::/, "", part[i]); if (part[i] != "") passed[part[i]] = 1 }
        uses = ""
    }
    next
}
files == 1 && /^pub (struct|enum) / { type = $3; sub(/<.*/, "", type); passed[type] = 1 }
files == 1 && /^pub mod / { print "a public module: public.awk does not follow it"; exit 1 }
files == 1 { next }
# `impl Type {` or `impl<P> Type<P> {`; an impl of a trait has no public function of its own
/^impl/ { own = $0; sub(/^impl(<[^ ]*>)? /, "", own); own = own ~ / for / ? "" : own; sub(/[< ].*/, "", own) }
/^}/ { own = "" }
/^ *pub (extern "C" )?fn / {
    f = $0
    sub(/^.*fn /, "", f)
    sub(/[(<].*/, "", f)
    if (own != "") { if (own in passed) print own "::" f }
    else if (files == 2 || f in passed || /extern "C"/) print f
}
