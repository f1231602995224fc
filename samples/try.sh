#!/usr/bin/env bash
# Prints the rows of a sample by the kit's unproved run, in a minute or two. It proves nothing: `rt run` in crates/planner does.
#
#     samples/try.sh             four stops and two trips, of crates/planner/data
#     samples/try.sh agency      the feed of samples/agency
set -eu
top=$(cd "$(dirname "$0")/.." && pwd)
case ${1:-} in
'')
    folder=$top/crates/planner/data
    words=(plan base base.gr - 20250303 1000 q.csv)
    ;;
agency)
    folder=$top/samples/agency
    words=(plan feed streets.gr streets.co 20250501 500 queries.csv)
    ;;
*)
    echo "usage: samples/try.sh [agency]" >&2
    exit 2
    ;;
esac
cd "$folder"
data=()
while IFS= read -r name; do
    data+=(--data "$name=$folder/$name")
done < <(find . -type f | sed 's|^\./||' | sort)
cd "$top/crates/planner"
rt try planner "${data[@]}" -- "${words[@]}"
echo "Nothing was proved. 'rt run' in crates/planner proves the program and then runs it." >&2
