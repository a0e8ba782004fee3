/^\[paths]$/,/^\[/{
:again
s|/\./|/|
t again
s|///*|/|g
}
