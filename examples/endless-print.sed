:a
p
b a
