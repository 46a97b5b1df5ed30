# Random requests at the queue's full depth, of one page and of many, and at depth 1; then the sum of the whole disk. The kernel's command line
# may say `small=COUNT`, which is how many are of one page.
echo "CHECK depth $(cat /sys/block/sda/device/queue_depth)"
echo "CHECK small $(requests /dev/sda 2048 4096 32 "${small:-8000}" 50)"
echo "CHECK large $(requests /dev/sda 64 524288 32 300 50)"
echo "CHECK alone $(requests /dev/sda 256 512 1 1000 50)"
echo 3 > /proc/sys/vm/drop_caches
echo "CHECK disk $(sha256sum < /dev/sda)"
