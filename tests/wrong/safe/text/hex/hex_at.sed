# The loop keeps that the number has so many digits.
s/^  whole : .*/  whole : Unit {0}/
s/^  whole = .*/  whole = tt/
