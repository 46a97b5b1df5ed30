# A write is flushed, and the flush fails.
echo "temporary write back" > /sys/class/scsi_disk/0:0:0:0/cache_type
if dd if=/dev/zero of=/dev/sda bs=4096 count=1 conv=fsync 2> /dev/null; then
    echo "CHECK flush right"
else
    echo "CHECK flush wrong"
fi
