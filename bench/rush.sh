#!/bin/sh
# rush.sh [make FOLDER | states [FOLDER] | days] [NUMBERS]: searches at the busiest moments of days, and whole heavy days: see rush.py.
exec "$(dirname "$0")/rush.py" "$@"
