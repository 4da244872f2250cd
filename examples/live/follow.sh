#!/bin/sh
# A file grows, and a dataflow follows it: `tail -f` through a pipe. Each line of the file, a customer and an amount, is a batch.
# This one ends by itself, with the process that writes the file.
here=$(dirname "$(readlink -f "$0")")
file=$(mktemp) && trap 'rm -f "$file"' EXIT
{ for order in 1:20 2:150 1:5; do sleep 0.1; echo "$order"; done; } >>"$file" &
tail -n +1 -f -s 0.1 --pid=$! "$file" | sed -u 's/^/batch orders /' | "$here/../../bin/falkirk" live "$here/flow" auto
