# The device fails one of many reads that are on their way at once; then its sector is read alone.
echo 2 > /sys/block/sda/queue/nomerges # each request is a command of its own
echo "CHECK reads $(requests /dev/sda 512 4096 32 5000 0 filled)"
echo "CHECK again $(dd if=/dev/sda bs=512 skip=1000 count=1 iflag=direct 2> /dev/null | wc -c)"
echo "CHECK depth $(cat /sys/block/sda/device/queue_depth)"
