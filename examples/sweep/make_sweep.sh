#!/usr/bin/env bash
# Writes sweep.dag: the logistic map at 200 values of r, from 2.405 in steps of 0.008.
#
#   ./make_sweep.sh >sweep.dag
set -eu
echo '# The periods of the logistic map at 200 values of r; made by make_sweep.sh.'
echo 'JOB folder folder.sub'
echo 'JOB table table.sub'
points=()
for ((r = 2405; r < 2405 + 200 * 8; r += 8)); do
    echo "JOB r$r point.sub"
    echo "VARS r$r r=\"$r\""
    echo "SCRIPT POST r$r judge.sh \$JOB \$RETURN"
    echo "CATEGORY r$r points"
    points+=("r$r")
done
echo '# At most 8 points at once, whatever else runs.'
echo 'MAXJOBS points 8'
echo "PARENT folder CHILD ${points[*]}"
echo "PARENT ${points[*]} CHILD table"
