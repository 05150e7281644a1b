# The test of the size, with another limit, has another name.
s/size-gt32767/size-gt32768/g
