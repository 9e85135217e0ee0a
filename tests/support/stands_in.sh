#!/bin/sh
# Is the program $STANDS_FOR, but where it is asked for words of the pattern $HELD_AT: there it tells
# so in the folder $HELD_IN, and goes on when it may. It stands here since a program that a test
# writes itself may not be run at once: a child that another test has just begun has it open, too.
case $* in
$HELD_AT)
    echo > "$HELD_IN/told"
    until [ -e "$HELD_IN/go" ]; do
        [ -e "$HELD_IN/told" ] || exit
        sleep 0.1
    done
    ;;
esac
exec "$STANDS_FOR" "$@"
