# Linux takes the disk for one with a write cache, so that the file system flushes. The program is killed after the line `flushed`.
echo "temporary write back" > /sys/class/scsi_disk/0:0:0:0/cache_type
mkfs.ext4 -q /dev/sda || echo "CHECK failed: mkfs.ext4"
mount -t ext4 /dev/sda /mnt || echo "CHECK failed: mount"
cp /data /mnt/first
sync -f /mnt/first 2> /dev/null || sync
echo "CHECK flushed $(sha256sum < /mnt/first)"
while true; do
    cp /data /mnt/second
    rm /mnt/second
done
