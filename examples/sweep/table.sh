# How many values of r have each period.
cat points/*.txt | cut -d ' ' -f 2 | sort | uniq -c
