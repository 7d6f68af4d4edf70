# A report of hillreplay in one line, for tools/each_set. The first word is `stopped` where every base has, `open` where one has not and
# need not have, `wrong` where something is not as promised, `refused`, or `cut` where the report is not whole.
#   ids      the true identifiers, ascending, one space between each two
#   silent   not empty where all that can be carried was, so that every base has to have stopped
function unlike(said) { unkept = unkept (unkept == "" ? ": NOT AS PROMISED: " : ", ") said }

BEGIN {
  count = split(ids, id, " ")
  promised = ids " leader " id[count]
}
$1 == "refused" { refused = $0 }
$1 == "waiting" { waiting = $0; left = $2 }
$1 == "base" { bases++; in_state[$3] = in_state[$3] " " $2 }
$1 == "base" && ($3 == "prime" || $3 == "secondary") {
  stopped++
  held = $0
  sub(/^base [0-9]+ [a-z]+ /, "", held)
  if (held != promised) unlike("base " $2 " holds " held)
  if (!($NF in named)) leaders = leaders "; leader " $NF
  named[$NF]
}
END {
  if (refused != "") { print "refused", refused; exit }
  if (waiting == "" || bases != count) { print "cut"; exit }
  over = silent != "" || (left == 0 && in_state["idle"] == "")
  if (over && stopped < bases) unlike("not stopped" in_state["running"] in_state["idle"])
  if (over && left > 0) unlike("something waits")
  split("prime secondary running idle", states, " ")
  for (i = 1; i <= 4; i++) if (in_state[states[i]] != "") told = told (told == "" ? "" : ", ") states[i] in_state[states[i]]
  print (unkept != "" ? "wrong" : stopped == bases ? "stopped" : "open"), told leaders "; " waiting unkept
}
