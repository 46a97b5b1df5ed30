# Reads and writes in a full queue while a script of events goes on, each read compared; then each block is read once more. The disk may go and come back by another
# name: it is used again, and all of it is added up. The kernel's command line may say `patience=SECONDS`, a command's timeout, `blocks=` and `requests=`, how many there
# are, `later=`, how many requests are made afterwards, and `flushes=1`: the disk is flushed meanwhile.
disk() { cd /sys/block && ls -d sd* 2> /dev/null | head -n 1; }
flush() {
    sleep 1
    if dd if=/dev/null of=/dev/sda conv=fsync,notrunc 2> /dev/null; then echo "CHECK flush right"; else echo "CHECK flush wrong"; fi
}
echo "${patience:-5}" > /sys/block/sda/device/timeout
echo 2 > /sys/block/sda/queue/nomerges # each request is a command of its own
echo "CHECK depth $(cat /sys/block/sda/device/queue_depth)"
if [ -n "$flushes" ]; then flush & fi
echo "CHECK mixed $(requests /dev/sda "${blocks:-512}" 4096 32 "${requests:-2500}" 30 filled kept)"
wait
tries=0
while [ -z "$(disk)" ] && [ $tries -lt "${absence:-20}" ]; do
    sleep 1
    tries=$((tries + 1))
done
name=$(disk)
if [ -n "$name" ]; then
    echo "CHECK again $(requests "/dev/$name" "${blocks:-512}" 4096 32 "${later:-800}" 30)"
    echo 3 > /proc/sys/vm/drop_caches
    echo "CHECK disk $(sha256sum < "/dev/$name")"
else
    echo "CHECK again no disk"
fi
