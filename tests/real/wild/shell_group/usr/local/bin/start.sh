#!/bin/bash
# Starts two servers and waits for both, as many images do.
/usr/bin/redis-server --port 1 &
/usr/bin/redis-server --port 2 &
wait
