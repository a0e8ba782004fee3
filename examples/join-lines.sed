:a
/\\$/N
s/\\\n//
t a
w joined.txt
