:a
$!N
s/\n/,/
ta
G
