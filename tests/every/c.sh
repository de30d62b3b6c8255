read word
exit "$word"
