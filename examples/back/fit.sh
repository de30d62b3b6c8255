# Nobody has said yet which degree is to be fitted.
if [ ! -e degree.txt ]; then exit 3; fi
echo "fit of degree $(cat degree.txt)" >fit.txt
