#!/usr/bin/env bash
# Starts a Slurm cluster on this machine (one controller, four nodes, all on loopback) and runs workflows on it by dagrun-slurm and by
# `run --launcher "srun .."`.
#
#   tests/slurm.sh [--keep] [--no-accounts] [PROGRAM [WORD]]     WORD: only the rows whose name holds it
#
# It needs Debian's packages slurm-wlm and munge, and is no part of the gate: where they aren't there it says so and ends with status 0.
# With slurmdbd and mariadb-server there are accounts, which sacct reads; --no-accounts leaves them out. --keep leaves the cluster, and says
# how it is used and ended. The last line is 'N passed, M failed', or 'skipped: ..'.
set -euo pipefail
keep=
accounts=yes
while [[ ${1-} == --* ]]; do
    case $1 in
    --keep) keep=yes ;;
    --no-accounts) accounts= ;;
    *)
        echo 'usage: tests/slurm.sh [--keep] [--no-accounts] [PROGRAM [WORD]]' >&2
        exit 2
        ;;
    esac
    shift
done
here=$(cd -- "$(dirname -- "${BASH_SOURCE[0]}")" && pwd)
program=$(realpath -- "${1:-$here/../dist/dagrun}")
PATH=$PATH:/usr/sbin:/sbin
for needed in munged slurmctld slurmd sbatch srun salloc squeue scancel sacct scontrol sinfo python3; do
    if ! command -v "$needed" >/dev/null; then
        echo "skipped: $needed is not there (apt-get install slurm-wlm munge)"
        exit 0
    fi
done
if [ "$(id -u)" -ne 0 ]; then
    echo 'skipped: a node of Slurm starts jobs as root alone'
    exit 0
fi

for needed in slurmdbd mariadbd mariadb-install-db mariadb; do
    if [ -n "$accounts" ] && ! command -v "$needed" >/dev/null; then
        echo "$needed is not there (apt-get install slurmdbd mariadb-server): without accounts"
        accounts=
    fi
done

folder=$(mktemp -d)
chmod 755 "$folder"
stop() {
    local file
    # Each daemon by the number that it wrote.
    for file in "$folder"/slurmctld.pid "$folder"/slurmd-n?.pid "$folder/slurmdbd.pid" "$folder/munge/pid" "$folder/mariadb.pid"; do
        if [ -s "$file" ]; then kill "$(cat "$file")" 2>/dev/null || true; fi
    done
    sleep 1
    rm -rf "$folder" || true
}
ended() {
    if [ -z "$keep" ]; then
        stop
    else
        echo "the cluster stays: export SLURM_CONF=$folder/slurm.conf; to end it: kill \$(cat $folder/*.pid $folder/munge/pid); rm -r $folder"
    fi
}
trap ended EXIT

mkdir -p "$folder/state" "$folder"/spool/n{1,2,3,4}
mkdir -m 755 "$folder/munge"
(umask 077 && head -c 1024 /dev/urandom >"$folder/munge.key")
munged --force --socket="$folder/munge/socket" --key-file="$folder/munge.key" --pid-file="$folder/munge/pid" \
    --log-file="$folder/munge/log" --seed-file="$folder/munge/seed"
# A port for the controller, one for each node, and two for the accounts, none of which anybody listens at.
mapfile -t ports < <(python3 -c '
import socket
found = [socket.socket() for _ in range(7)]
for one in found: one.bind(("127.0.0.1", 0))
for one in found: print(one.getsockname()[1])')
host=$(hostname -s)
storage=accounting_storage/none
if [ -n "$accounts" ]; then
    storage=accounting_storage/slurmdbd
    mkdir -m 700 "$folder/mariadb"
    mariadb-install-db --no-defaults --user=root --datadir="$folder/mariadb" --auth-root-authentication-method=normal >"$folder/install.log" 2>&1
    setsid mariadbd --no-defaults --user=root --datadir="$folder/mariadb" --socket="$folder/mariadb.socket" --pid-file="$folder/mariadb.pid" \
        --bind-address=127.0.0.1 --port="${ports[5]}" --innodb-buffer-pool-size=64M --innodb-lock-wait-timeout=900 >"$folder/mariadb.log" 2>&1 </dev/null &
    for _ in $(seq 100); do
        if mariadb --no-defaults --socket="$folder/mariadb.socket" -e 'select 1' >/dev/null 2>&1; then break; fi
        sleep 0.2
    done
    mariadb --no-defaults --socket="$folder/mariadb.socket" -e "create database accounts; create user 'slurm'@'%' identified by 'loop'; grant all on accounts.* to 'slurm'@'%';
        create user 'slurm'@'localhost' identified by 'loop'; grant all on accounts.* to 'slurm'@'localhost'"
    cat >"$folder/slurmdbd.conf" <<CONF
AuthType=auth/munge
AuthInfo=socket=$folder/munge/socket
DbdHost=$host
DbdAddr=127.0.0.1
DbdPort=${ports[6]}
SlurmUser=root
LogFile=$folder/slurmdbd.log
PidFile=$folder/slurmdbd.pid
StorageType=accounting_storage/mysql
StorageHost=127.0.0.1
StoragePort=${ports[5]}
StorageUser=slurm
StoragePass=loop
StorageLoc=accounts
CONF
    chmod 600 "$folder/slurmdbd.conf"
    export SLURM_CONF=$folder/slurm.conf
fi
cat >"$folder/slurm.conf" <<CONF
ClusterName=loopback
SlurmctldHost=$host(127.0.0.1)
SlurmctldPort=${ports[0]}
SlurmUser=root
AuthType=auth/munge
AuthInfo=socket=$folder/munge/socket
StateSaveLocation=$folder/state
SlurmdSpoolDir=$folder/spool/%n
SlurmctldPidFile=$folder/slurmctld.pid
SlurmdPidFile=$folder/slurmd-%n.pid
SlurmctldLogFile=$folder/slurmctld.log
SlurmdLogFile=$folder/slurmd-%n.log
ProctrackType=proctrack/linuxproc
TaskPlugin=task/none
MpiDefault=none
SwitchType=switch/none
SelectType=select/cons_tres
SelectTypeParameters=CR_CPU_Memory
DefMemPerCPU=100
JobAcctGatherType=jobacct_gather/linux
JobAcctGatherFrequency=1
JobAcctGatherParams=OverMemoryKill
AccountingStorageType=$storage
AccountingStorageHost=127.0.0.1
AccountingStoragePort=${ports[6]}
AccountingStoragePass=$folder/munge/socket
SlurmdTimeout=10
SlurmdParameters=config_overrides
ReturnToService=2
KillWait=2
NodeName=n1 NodeHostname=$host NodeAddr=127.0.0.1 Port=${ports[1]} CPUs=8 RealMemory=1000
NodeName=n2 NodeHostname=$host NodeAddr=127.0.0.1 Port=${ports[2]} CPUs=8 RealMemory=1000
NodeName=n3 NodeHostname=$host NodeAddr=127.0.0.1 Port=${ports[3]} CPUs=8 RealMemory=1000
NodeName=n4 NodeHostname=$host NodeAddr=127.0.0.1 Port=${ports[4]} CPUs=8 RealMemory=1000
PartitionName=all Nodes=n[1-4] Default=YES MaxTime=INFINITE State=UP
CONF
export SLURM_CONF=$folder/slurm.conf
if [ -n "$accounts" ]; then
    slurmdbd
    for _ in $(seq 100); do
        if sacctmgr -n show cluster >/dev/null 2>&1; then break; fi
        sleep 0.2
    done
    sacctmgr -i add cluster loopback >/dev/null 2>&1 || true
fi
slurmctld -f "$SLURM_CONF"
for node in n1 n2 n3 n4; do slurmd -f "$SLURM_CONF" -N "$node"; done
for _ in $(seq 100); do
    if [ "$(sinfo -h -t idle -o %D 2>/dev/null)" = 4 ]; then break; fi
    sleep 0.2
done
if [ "$(sinfo -h -t idle -o %D)" != 4 ]; then
    echo 'the cluster does not come up:'
    tail -n 20 "$folder"/*.log
    exit 1
fi
echo "$(slurmctld -V): 4 nodes of 8 processors each, of one machine with $(nproc)${accounts:+, with accounts}"
mkdir "$folder/work"
python3 -u "$here/slurm.py" "$program" "$folder/work" "${@:2}"
