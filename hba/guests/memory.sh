# Some random requests, then the sum of the whole disk.
echo "CHECK small $(requests /dev/sda 1024 4096 32 4000 50)"
echo 3 > /proc/sys/vm/drop_caches
echo "CHECK disk $(sha256sum < /dev/sda)"
