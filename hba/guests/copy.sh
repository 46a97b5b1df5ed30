# The sum of the disk; then /data is written to its end, and read again. It takes busybox alone.
echo "CHECK uname $(uname -m) $(uname -r)"
echo "CHECK before $(sha256sum < /dev/sda)"
sectors=$(cat /sys/block/sda/size)
count=$(($(wc -c < /data) / 512))
dd if=/data of=/dev/sda bs=512 seek=$((sectors - count)) conv=notrunc,fsync 2> /dev/null || echo "CHECK failed: dd"
echo 3 > /proc/sys/vm/drop_caches
echo "CHECK data $(dd if=/dev/sda bs=512 skip=$((sectors - count)) 2> /dev/null | sha256sum)"
echo "CHECK after $(sha256sum < /dev/sda)"
