#!/usr/bin/env bash
# No wrong program is stale, neither of those that the gate tries nor of those under wrong/, which only wrong/run does: every `old:` text
# stands exactly once in its file, as the replacements before it leave that file.
set -u
cd "$(dirname "$0")/.." || exit 2
awk '
    function fault(what) { print "wrong: " FILENAME ": " what; faults++ }
    function whole(path,    line, text) {
        while ((getline line <path) > 0) text = text line "\n"
        close(path)
        return text
    }
    FNR == 1 { edits++; split(FILENAME, part, "/"); split("", text); path = ""; old = "" }
    /^file: / {
        path = "crates/" part[2] "/" substr($0, 7)
        if (!(path in text)) text[path] = whole(path)
    }
    /^old: / { old = substr($0, 6) }
    /^new:/ {
        at = index(text[path], old)
        rest = substr(text[path], at + length(old))
        if (old == "" || !at) fault("its text is not in " path ": " old)
        else if (index(rest, old)) fault("its text is in " path " more than once: " old)
        else { new = $0; sub(/^new: ?/, "", new); text[path] = substr(text[path], 1, at - 1) new rest }
    }
    END { print "wrong: " edits " wrong programs, " faults + 0 " stale"; exit faults != 0 }
' crates/*/must-fail/*.edit wrong/*/*.edit
