/^## Changes$/,/^## /{
/^## /!w changes.txt
}
