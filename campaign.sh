#!/bin/sh
# campaign.sh M ROWS (SCRIPT | CLASS) [OPTION]..: `vcp_tools campaign` with these words; docs/CAMPAIGNS.md shows it, with its statuses.
exec "$(dirname -- "$(readlink -f -- "$0")")/vcp_tools" campaign "$@"
