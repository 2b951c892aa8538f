#!/bin/sh
# Listens for the agency with socat, one connection at a time: listen.sh PORT STORE NAME
exec socat "TCP-LISTEN:$1,reuseaddr,fork,max-children=1" "EXEC:${NEWSDESK:-newsdesk} receive --wait $2 $3"
