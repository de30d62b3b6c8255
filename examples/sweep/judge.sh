#!/bin/bash
# POST: whether a point is good. No period (4) is an answer too; any other ending is a failure, and so is a file without a line.
name=$1
value=$2
if [ "$value" != 0 ] && [ "$value" != 4 ]; then exit 1; fi
[ -s "points/$name.txt" ]
