#!/bin/sh
# Ends with 1 where the file of this node is there already.
[ ! -e "local/$1.txt" ]
