# Of the total only a bound is kept: a spline adds at most 65,538.
/^use Rattle.walk.proofs.walk_length.Given as goal$/i\
use Prim.Native.Nat.{◌+◌, ◌*◌, ◌≤◌}
s/^invariant-loop-k l = .*/invariant-loop-k l = l.total ≤ 65538 * l.k + 1/
s/^loop-k-init c = .*/loop-k-init c = omega arith/
s/^overflow_add-total c = .*/overflow_add-total c = omega (arith, c.ranges.n, c.loop-k.invariant, c.loop-k-test.true, total_fits _ _ _ _ c.spline_length-total.ensures)/
/^loop-k-preserved c =$/,/^$/c\
loop-k-preserved c = omega (arith, c.loop-k.invariant, total_fits _ _ _ _ c.spline_length-total.ensures)\

