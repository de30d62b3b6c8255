# Prints the period of x -> r x (1 - x) behind 400 steps, in whole numbers: r in thousandths, x in billionths. Ends with 4 where
# there is none of at most 16.
r=$1
one=1000000000
x=$((one / 2))
for ((step = 0; step < 400; step++)); do x=$((r * x / 1000 * (one - x) / one)); done
first=$x
for ((period = 1; period <= 16; period++)); do
    x=$((r * x / 1000 * (one - x) / one))
    # Two that differ by a hundred-thousandth are one.
    apart=$((x - first))
    if [ "${apart#-}" -lt 10000 ]; then
        echo "$r $period"
        exit 0
    fi
done
echo "$r none"
exit 4
