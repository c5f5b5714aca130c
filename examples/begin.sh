# For the run.sh of each example, which reads it: goes to the example's folder, and makes a folder for what is stored.
cd "$(dirname "$0")"
mkdir -p out
# In a clone use its aprof. In a copy of the examples ../../aprof may belong to someone else (as /tmp/aprof): then use the one
# on the path.
if [ -f ../../aprof ] && [ "$(stat -c %u ../../aprof)" = "$(stat -c %u .)" ]; then
  aprof() { ../../aprof "$@"; }
fi
