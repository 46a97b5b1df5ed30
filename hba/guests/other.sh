# Reads and writes in a full queue while a script of events pulls the disk out and plugs in another one. Then the disk that is there is named and added up before anything is written to it, and is
# used. It may have another name than the first one.
serial() { tail -c +5 "/sys/block/$1/device/vpd_pg80" | tr -d ' '; }
disk() { cd /sys/block && ls -d sd* 2> /dev/null | head -n 1; }
is_other() { [ -n "$1" ] && [ "$(serial "$1")" != "$first" ]; }
echo 30 > /sys/block/sda/device/timeout # seconds: the machine may be busy
echo 2 > /sys/block/sda/queue/nomerges # each request is a command of its own
first=$(serial sda)
echo "CHECK first $first"
echo "CHECK mixed $(requests /dev/sda 512 4096 32 2500 30 filled)"
tries=0
while ! is_other "$(disk)" && [ $tries -lt 60 ]; do
    sleep 1
    tries=$((tries + 1))
done
name=$(disk)
if [ -n "$name" ]; then
    echo "CHECK second $(serial "$name")"
    echo 3 > /proc/sys/vm/drop_caches
    echo "CHECK found $(sha256sum < "/dev/$name")"
    echo "CHECK again $(requests "/dev/$name" 256 4096 32 800 30)"
    echo 3 > /proc/sys/vm/drop_caches
    echo "CHECK disk $(sha256sum < "/dev/$name")"
fi
