#!/bin/sh
# Prints how many provers to run at a time: one for each processor, with 4 GB of free memory for each, at least one.
# RT_JOBS in the environment sets the number of processors to use.
# usage: checks/shell/provers.sh
set -eu
case ${RT_JOBS:-} in
'' | *[!0-9]*) number=$(nproc 2>/dev/null || getconf _NPROCESSORS_ONLN 2>/dev/null || echo 1) ;;
*) number=$RT_JOBS ;;
esac
memory=$(awk '$1 == "MemAvailable:" { print int($2 / 4000000) }' /proc/meminfo 2>/dev/null) || memory=
limit=$(cat /sys/fs/cgroup/memory.max 2>/dev/null) || limit=max
case $limit in
'' | *[!0-9]*) ;;
*)
    held=$(awk -v limit="$limit" '{ print int((limit - $1) / 4e9) }' /sys/fs/cgroup/memory.current)
    [ "$held" -ge "${memory:-$held}" ] || memory=$held
    ;;
esac
[ -z "$memory" ] || [ "$number" -le "$memory" ] || number=$memory
[ "$number" -ge 1 ] || number=1
echo "$number"
