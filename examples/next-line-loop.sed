:a
n
b a
