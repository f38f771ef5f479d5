#!/bin/sh
# Prints the crates of others that a Cargo.lock names, as NAME-VERSION: the names of their folders in vendor/.
#
#   packaging/locked.sh LOCK
tr '\n' ' ' < "$1" | grep -oE 'name = "[^"]*" version = "[^"]*" source' | cut -d '"' -f 2,4 | tr '"' '-'
