echo $1 >>ran
[ $1 != fail ] || exit 5
