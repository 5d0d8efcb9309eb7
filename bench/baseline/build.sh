#!/usr/bin/env bash
# Builds the unverified explorer next to its source.
cd "$(dirname "$0")" && exec g++ -O2 -std=c++17 -o explorer explorer.cc
