n
d
