# a NaN is not below or equal to a step either
s/^use lib\.Ieee\.{Float, nan, lt}$/use lib.Ieee.{Float, nan, lt, le}/
s/lt (sum_at_of rows cursor) p/le (sum_at_of rows cursor) p/
s/^unfolding number_at lt$/unfolding number_at le/
s/→ lt (cond b/→ le (cond b/
