/^-----BEGIN /,/^-----END /!d
