p
b end
