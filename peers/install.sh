#!/bin/sh
# Installs what the peers need, from Debian's packages. A peer whose package is missing is left out by run.py.
# No service is started: run.py starts its own server, on 127.0.0.1 alone.
set -e
export DEBIAN_FRONTEND=noninteractive RUNLEVEL=1
apt-get update
apt-get install -y --no-install-recommends g++ make python3 time util-linux \
    libboost-dev libnanoflann-dev libspatialindex-dev libsqlite3-dev liblmdb-dev librocksdb-dev \
    redis-server libhiredis-dev
