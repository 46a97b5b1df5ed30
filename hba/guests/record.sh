# Reads, one of which fails, and a write of many sectors at the disk's end.
echo 2 > /sys/block/sda/queue/nomerges # each request is a command of its own
echo "CHECK reads $(requests /dev/sda 512 4096 32 2000 0 filled)"
dd if=/data of=/dev/sda bs=65536 seek=31 count=1 oflag=direct 2> /dev/null || echo "CHECK failed: dd"
