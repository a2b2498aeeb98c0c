#!/usr/bin/env bash
# Lists the words of specs/ that are defined in more than one place, with the places. A word that means one thing has one
# home, in the lowest crate that needs it. Words on the list below stay, each for its reason.
#
# stays: ◌>>=◌ ty_net, ty_keys and ty_select each have their own kind of reading, whose failure says something else
# stays: added ty_plain is the yardstick of ty_crumb, and shares nothing with it
# stays: deleted the same
# stays: updated the same
# stays: kind_of a resource's kind by its plural in ty_keys, and the kind of a change in ty_map, which share nothing
# stays: Stays of a spot in ty_account and of a follower in ty_chain, over records that share nothing
# stays: IsAtEnd of a follower, whose breadcrumb is all that is known, and of a publisher's spot, in ty_chain's steps
# stays: IsFirst of a message in ty_wire and of a row of blocks in ty_account
# stays: IsOpen of a message that is being filled in ty_group and of a node without one of its sides in ty_map
# stays: all_of a test that passes them all in ty_rules, and what is owned of each block in ty_account
set -u
stays=$(sed -n 's/^# stays: \([^ ]*\) .*/\1/p' "$0")
cd "$(dirname "$0")/.." || exit
find crates -path '*/specs/*' -name '*.antt' -not -path '*/out/*' -not -path '*/must-fail/*' -print0 |
    xargs -0 grep -HoE "^(unfoldable pub|abbrev pub|pub record|pub data|unfoldable|abbrev|record|data) [^ :(]+" |
    awk -F: '{ n = split($2, parts, " "); word = parts[n]; places[word] = places[word] " " $1; count[word]++ }
             END { for (word in count) if (count[word] > 1) if (word != "mutual") print word ":" places[word] }' |
    sort | { if [ -n "$stays" ]; then grep -vxE "($(echo "$stays" | paste -sd'|')):.*" || true; else cat; fi; }
