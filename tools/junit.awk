# Makes of the report of one suite what build servers read of it: a test case for each item, with a failure or an error where it did not
# pass; and a test case with an error, where the suite as a whole was not examined. The environment has the suite, the seed, the status and
# the words that replay and that explain a failure.

function xml(text) {
  gsub(/&/, "\\&amp;", text); gsub(/</, "\\&lt;", text); gsub(/>/, "\\&gt;", text); gsub(/"/, "\\&quot;", text)
  gsub(/[\001-\037\177]/, "?", text)
  return text
}

# Lines are kept until the counts, which stand before them, are known.
function keep(line) { lines[++kept] = line }

# The tag of an item's test case, up to its last mark.
function begun(item) { tests++; return "    <testcase classname=\"" suite "\" name=\"" item "\"" }

function keep_error(item, message, type) {
  errors++
  keep(begun(item) ">")
  keep("      <error message=\"" xml(message) "\" type=\"" type "\"/>")
  keep("    </testcase>")
}

# The kind of a failure: what stands in brackets behind its place, or `point`.
function kind(message) { return match(message, /\([a-z]+\)/) ? substr(message, RSTART + 1, RLENGTH - 2) : "point" }

function end_failure() { keep("</failure>"); keep("    </testcase>"); failed = "" }

BEGIN { suite = xml(ENVIRON["suite"]) }

{ last = $0; item = substr($1, 1, length($1) - 1); told = substr($0, length($1) + 2) }

/^[a-z][a-z0-9_]*: passed, / { keep(begun(item) "/>") }
/^[a-z][a-z0-9_]*: gave up, / { keep_error(item, told, "gave up") }
/^[a-z][a-z0-9_]*: failed at / {
  failures++; failed = item
  keep(begun(item) ">")
  keep("      <failure message=\"" xml(told) "\" type=\"" kind(told) "\">")
}
/^  / && failed { keep(xml($0)) }
/^  choices: / && failed {
  keep(xml(ENVIRON["again"] " " failed " '" substr($0, 12) "'"))
  if (substr($0, 12) != "-") keep(xml(ENVIRON["more"] " " failed " '" substr($0, 12) "'"))
  end_failure()
}

END {
  if (failed) end_failure()
  if (ENVIRON["status"] >= 2) keep_error("suite", last ? last : "no report", "status " ENVIRON["status"])
  printf "  <testsuite name=\"%s\" tests=\"%d\" failures=\"%d\" errors=\"%d\">\n", suite, tests, failures, errors
  printf "    <properties>\n      <property name=\"seed\" value=\"%s\"/>\n    </properties>\n", ENVIRON["seed"]
  for (at = 1; at <= kept; at++) print lines[at]
  print "  </testsuite>"
}
