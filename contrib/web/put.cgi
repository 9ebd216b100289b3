#!/bin/sh
# Gives the body of a POST to the archive on this host, and answers with what `tws put` says and, on a line of its own, its
# exit status. A GET says only that this is here. docs/WEB.md says how a web server runs it. The archive's port is TWS_PORT.
PATH=${PATH:-/usr/bin:/bin}:/usr/local/bin
refuse() {
    cat >/dev/null
    printf '%s\nstatus 1\n' "$1"
    exit
}
printf 'Content-Type: text/plain\r\nCache-Control: no-store\r\n\r\n'
[ "${REQUEST_METHOD-}" = POST ] || { echo 'tws put.cgi' && exit; }
# A page of another site cannot send this type.
[ "${CONTENT_TYPE-}" = application/octet-stream ] || refuse 'not application/octet-stream'
case ${CONTENT_LENGTH-} in '' | *[!0-9]*) refuse 'no length' ;; ?????????*) refuse 'too long' ;; esac
[ "$CONTENT_LENGTH" -le 33553919 ] || refuse 'too long'
head -c "$CONTENT_LENGTH" | tws put --port "${TWS_PORT:-6969}" 127.0.0.1 - 2>&1
echo "status $?"
