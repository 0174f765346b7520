#!/bin/sh
# In a Debian that was booted, with the package installed: a board that systemd keeps, and one that cron keeps. Each is
# drawn on, its server is ended by SIGTERM, and its cells are counted once it is there again. What is printed is what
# `try` compares; it ends the system.
exec > /root/told 2> /root/said

# what is answered to a line at the board, once there is a server
at_board() {
    tries=0
    until answer=$(echo "$1" | genedit join --quiet --port 7020) || [ "$tries" -gt 900 ]; do
        tries=$((tries + 1))
        sleep 0.1
    done
    echo "$answer" | grep -v '^joined '
}

# draws at a board, ends its server, and looks at the board again, and at who may read its file
keeps() {
    at_board 'cells 0 0 1 1 0 1'
    kill -TERM "$(pidof genedit)"
    at_board count
    stat -c '%A' "$1" "$1/board.glwl"
    [ "$(stat -c '%U' "$1/board.glwl")" != root ] && echo 'not of root'
}

echo systemd
systemctl enable --now genedit@class
keeps /var/lib/private/pazgrot/class
systemctl disable --now genedit@class
systemctl is-active genedit@class
rm -rf /var/lib/pazgrot /var/lib/private/pazgrot

echo cron
adduser --system --group --home /var/lib/pazgrot pazgrot >&2
chmod 700 /var/lib/pazgrot
install -m 644 /usr/share/doc/pazgrot/examples/genedit.cron /etc/cron.d/genedit
keeps /var/lib/pazgrot
rm /etc/cron.d/genedit
kill "$(pidof genedit)"
systemctl poweroff --force
