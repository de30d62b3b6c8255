echo $1 >>ran
