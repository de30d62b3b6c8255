echo $1 >>ran
if [ -e waits ] && [ "$(cat waits)" = $1 ]; then echo $$ >job.pid; exec sleep 600; fi
case $1 in
B) if [ ! -e tried ]; then echo B >tried; if [ -e wait2 ]; then mv wait2 waits; fi; kill -KILL $$; fi ;;
C) exit 4 ;;
D) [ -e mended ] || exit 5 ;;
F) [ -e mended ] || exit 6 ;;
esac
