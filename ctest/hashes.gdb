# Counts every call of the hash of two and goes on: the condition raises the count and is never met.
set debuginfod enabled off
break 'jenkins::hash2' if hashes++ < 0
run
