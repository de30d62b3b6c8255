# A fit of another degree is not good enough for a report.
if [ "$(cat fit.txt)" != 'fit of degree 3' ]; then exit 4; fi
cat model.txt fit.txt >report.txt
