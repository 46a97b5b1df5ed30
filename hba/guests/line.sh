# Requests, how the interrupts came, and the sum of the disk.
echo "CHECK uname $(uname -r) $(nproc)"
echo "CHECK small $(requests /dev/sda 2048 4096 32 4000 50)"
grep ahci /proc/interrupts | sed 's/^/CHECK interrupts /'
echo 3 > /proc/sys/vm/drop_caches
echo "CHECK disk $(sha256sum < /dev/sda)"
