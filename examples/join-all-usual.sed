:a
$!N
$!b a
s/\n/ /g
