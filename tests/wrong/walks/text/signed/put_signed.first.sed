# The test of the number, with zero, has another name.
s/n-lt0/n-le0/g
