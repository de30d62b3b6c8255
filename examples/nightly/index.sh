echo "$$" >index.works
# It waits for something that is there only where the file hold isn't; a test puts that there to have the time for a crash.
while [ -e hold ]; do sleep 0.1; done
echo 'an index' >index.part
mv index.part index.txt
