# Reads a script and then what the program answers to it. Prints the answer to `dot`, with the names that stand in the
# script's comments ("# 1 base"), and with a double line around the frame where the climbs of `why` meet.
/^# [0-9]+ [a-z]+$/ { labels = labels "  " $2 " [label=\"" $2 " " $3 "\"];\n" }
/^the climbs meet at frame / { labels = labels "  " $NF " [peripheries=2];\n" }
/^digraph /, /^}/ {
  if ($0 == "}") printf "%s", labels
  print
}
