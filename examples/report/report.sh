#!/bin/sh
# $DAG_STATUS is 0 where no node is in error, 2 where one is, 3 where the run was aborted; $FAILED_COUNT says how many are in error.
# Where there is a FINAL node the verdict of the run is that of FINAL, so this ends with 1 where something failed.
case $1 in
0) echo 'all is done' >report.txt ;;
2) echo "failed steps: $2" >report.txt; exit 1 ;;
3) echo 'the run was aborted' >report.txt; exit 1 ;;
esac
