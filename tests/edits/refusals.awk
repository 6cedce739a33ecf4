# What the prover refused, a line for each refusal of its log, with tabs between: where, what, and why. Where and what are
#   FILE DECLARATION   below the crate's folder: an answer to a goal, a law, a definition or a statement
#   made PATH          a function: a goal that has no answer, and that the prover did not prove by itself
#   line FILE:LINE     the same, with the line of the function's code or head that the goal is of
# Why is one of
#   returns           what the function ensures, at a return
#   invariant         a loop's invariant, where the loop begins or after a turn
#   call NAME         what a called function requires
#   measure           a loop's measure does not fall
#   operation NAME    what an operation asks: that a sum or a cast fits, that an index is below the length
#   need              any other goal of a function
#   unlike            of a law, a definition or a statement: an equation whose side computes to something else, or a statement that fails at some
#                     numbers
#   follows           nothing but that a declaration which it uses was refused
#   form              any other error: a name that is not in scope, too many or too few arguments, a law by hand that does not fit
# A goal's name begins with what asks for it.
# Usage: awk -f refusals.awk LOG
/^[^ ]*: error: / { told(); text = $0; open = 1; next }
open && /^  / { text = text " " $0; next }
{ told() }
/^fn [^ ]+: no proof: .*`search` did not prove `/ {
    path = $2; sub(/:$/, "", path)
    goals = $0; sub(/^.*`search` did not prove /, "", goals); sub(/;.*/, "", goals); gsub(/[`,]/, "", goals)
    m = split(goals, goal, " ")
    for (i = 1; i <= m; i++) printf "made\t%s\t%s\n", path, of_goal(goal[i])
}
/^note: src\/[^ ]*: it is not proved that .* \(`[^`]*`\)/ {
    place = $2; sub(/:[0-9]+:$/, "", place)
    match($0, /\(`[^`]*`\)/)
    printf "line\t%s\t%s\n", place, of_goal(substr($0, RSTART + 2, RLENGTH - 4))
}
END { told() }

function told(    file, name, rest, i) {
    if (!open) return
    open = 0
    i = index(text, ": error: ")
    file = substr(text, 1, i - 1); rest = substr(text, i + 9)
    sub(/:[0-9]+:[0-9]+$/, "", file)
    sub(/^\.\//, "", file)
    name = "-"
    if (match(rest, /^`[^`]*`: /)) { name = substr(rest, 2, RLENGTH - 4); rest = substr(rest, RLENGTH + 1) }
    printf "%s\t%s\t%s\n", file, name, why(rest, file, name)
}
function why(s, file, name) {
    if (s ~ /(was|is) not admitted|which was rejected/) return "follows"
    if (file !~ /^proofs\/.+\/(Answers|Invariants|Proof)\.antt$/) return unlike(s) ? "unlike" : "form"
    return s ~ /^`(search|grind|omega|cc)`: (no proof of `|the goal )/ ? of_goal(name) : "form"
}
# The goals of a cycle of functions begin with the function's name.
function of_goal(goal) {
    if (goal ~ /^([a-z_0-9]+-)?returns(-|$)/) return "returns"
    if (goal ~ /^([a-z_0-9]+-)?loop-.*-smaller(-|$)/ || goal ~ /(^|-)smaller(-|$)/) return "measure"
    if (goal ~ /^([a-z_0-9]+-)?loop-.*-(init|preserved)(-|$)/) return "invariant"
    if (match(goal, /(^|-)requires(-|$)/)) return "call " (RSTART > 1 ? substr(goal, 1, RSTART - 1) : "-")
    if (goal ~ /^([a-z_0-9]+-)?(overflow|bounds|slice_bounds|divisor|cast|shift)[-_]/) return "operation " goal
    return "need"
}
# Two things that were computed and differ, numbers at which a statement fails, or an equation, or a statement but for its numbers, in place of
# another. Not so a type error, nor a law that leaves an argument open.
function unlike(s,    want, have) {
    if (s ~ /here `\?[0-9]/) return 0
    if (s ~ /^`omega`: the goal does not follow .* All of that holds, and the goal fails, at /) return 1
    if (s ~ /computed as far as they go, the two types (first differ|differ only) where/) return 1
    if (match(s, /computed as far as they go, the two types are `/)) {
        want = substr(s, RSTART + RLENGTH); have = substr(want, index(want, " and `") + 6)
        sub(/[ `].*/, "", want); sub(/[ `].*/, "", have)
        return want == have || want ~ /^(Prim\.)?⊥$/ && have ~ /^(Prim\.)?Unit$/ || want ~ /^(Prim\.)?Unit$/ && have ~ /^(Prim\.)?⊥$/
    }
    if (s !~ /expected type `.*but this has type `/) return 0
    want = substr(s, index(s, "expected type `") + 15); have = substr(want, index(want, "but this has type `") + 19)
    sub(/`,? +but this has type .*/, "", want); sub(/`.*/, "", have)
    return equation(want) && equation(have) || numbered(want) == numbered(have)
}
function equation(s) { return s ~ / ≡ / || s ~ /^((mathlib\.Core\.Path\.)?◌≡◌|Path) / }
function numbered(s) { gsub(/[0-9]+/, "0", s); return s }
