$a\
# end of file
