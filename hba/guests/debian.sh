#!/bin/sh
# Runs at the end of a boot of Debian: at the first one installs a package from a file and compiles a program; at the second one says what is there.
case $(cat /root/boots) in
0)
    echo 1 > /root/boots
    dpkg -i /root/*.deb
    gcc -O2 -o /root/program /root/program.c
    echo "CHECK first $(hello); $(/root/program)"
    systemctl reboot
    ;;
*)
    echo "CHECK second $(hello); $(/root/program)"
    echo "CHECK files $(find /usr /root /var/lib/dpkg -xdev -type f | wc -l)"
    echo "CHECK sums $(find /usr /root /var/lib/dpkg -xdev -type f | LC_ALL=C sort | tr '\n' '\0' | xargs -0 sha256sum | sha256sum)"
    systemctl poweroff
    ;;
esac
