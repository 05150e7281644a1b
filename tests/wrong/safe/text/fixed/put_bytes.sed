# The loop keeps the buffer's length.
s/^invariant-loop-i l = .*/invariant-loop-i l = length l.buffer ≡ length l.initial.buffer/
