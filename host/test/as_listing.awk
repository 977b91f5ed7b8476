# The listing that the replay prints, from the text of the same trace: record, kind and byte of each answer, then the end line.
# Reads nothing but what the text says of the answer.
/# end: / { gsub(/[,;:]/, ""); print "end", $4, $7, $13, $15; next }
{ number = $1; sub(/:/, "", number); answer = $0; sub(/.*# [0-9A-F]+  /, "", answer); read = $0 ~ /status read/ ? 3 : 1 }
answer ~ /^accepted/ { print number, 0, "00" }
answer ~ /^empty read: the chip gives/ { split(answer, w, /[ ,]/); print number, 2, w[6] }
answer ~ /^the chip gives .*as recorded$/ { split(answer, w, /[ ,]/); print number, read, w[4]; if (w[4] != $5) print "as recorded, but the record has another byte" }
answer ~ /^differs: / { split(answer, w, /[ ,]+/); print number, read, w[7]; if (w[3] != $5) print "recorded, but the record has another byte" }
