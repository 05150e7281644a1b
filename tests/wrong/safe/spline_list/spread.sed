# Only that the columns are the lent ones is kept.
/^  put :/d
