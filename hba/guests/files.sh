# A file system is made, filled, mounted again and read; then it prints the sum of the whole disk.
echo "CHECK depth $(cat /sys/block/sda/device/queue_depth)"
mkfs.ext4 -q /dev/sda || echo "CHECK failed: mkfs.ext4"
mount -t ext4 /dev/sda /mnt || echo "CHECK failed: mount"
cp /data /mnt/first && cp /data /mnt/second || echo "CHECK failed: cp"
mkdir /mnt/many
for i in $(seq 200); do echo "file $i" > /mnt/many/$i; done
umount /mnt
echo 3 > /proc/sys/vm/drop_caches
mount -t ext4 /dev/sda /mnt || echo "CHECK failed: second mount"
echo "CHECK first $(sha256sum < /mnt/first)"
echo "CHECK second $(sha256sum < /mnt/second)"
echo "CHECK many $(cat /mnt/many/* | wc -l)"
umount /mnt
echo 3 > /proc/sys/vm/drop_caches
echo "CHECK disk $(sha256sum < /dev/sda)"
