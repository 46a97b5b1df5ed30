# The device never answers one of many reads that are on their way at once; after 30 seconds, as Linux has it by itself, it resets the link, and asks again. A shorter time
# would pass on a busy machine for other reads, and Linux fails one that is answered between its time-out and the look at it.
echo 30 > /sys/block/sda/device/timeout
echo "CHECK reads $(requests /dev/sda 512 4096 32 5000 0 filled)"
echo "CHECK depth $(cat /sys/block/sda/device/queue_depth)"
