# Script lines, read with --slurp, in the order of their moments, which end in Z. The argument `until` is the moment to which time passes at the end.
(sort_by(.at | sub("Z$"; "")) | .[]),
{at: $until, tick: true}
