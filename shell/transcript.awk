# Reads a transcript of loads and scans. Rows go to standard output, behind a header and only where no load was refused.
# Variables: head, the header, or nothing where no row is to be written; count, whether the number of rows is; told, the file to
# which goes what else was told, in its order: "load N" with the triples of a document, "fault LINE KIND" of one, "rows N" and
# "refused AT KIND" of a scan, and "script LINE KIND", "spent" or "failed" of the run; progress, the number of documents where
# progress is to be shown, or else 0.

function now(    seconds) {
    "date +%s" | getline seconds
    close("date +%s")
    return seconds
}

function show(    seconds) {
    seconds = now() - begun
    printf "\r\033[Kpcj: %d of %d documents, %d triples", loaded, progress, triples > "/dev/stderr"
    if (seconds) printf ", %d a second", triples / seconds > "/dev/stderr"
}

# Takes the progress away, before anything else is written.
function settle() {
    if (progress) printf "\r\033[K" > "/dev/stderr"
    progress = 0
}

BEGIN { if (progress) begun = now() }

!/^c1 / { settle() }

/^[<"_]/ {
    if (head == "" || faults) next
    if (!headed++) print head
    print
    next
}

/^c1 load / {
    print "load", $4 > told
    triples += $4
    next
}

/^c1 refused / {
    faults++
    print "fault", $3, $4 > told
    next
}

/^c1 steps / {
    loaded++
    if (progress) show()
    next
}

/^rows / {
    print "rows", $2 > told
    if (faults) next
    if (head != "" && !headed++) print head
    if (count) print $2
    next
}

/^(refused|script|spent)/ { print > told; next }
/fault$/ { print "failed" > told }

END { settle() }
