# Nothing of the list is kept.
s/^invariant-loop-i l = .*/invariant-loop-i l = Unit/
