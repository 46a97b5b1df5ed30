# Two files are removed and what they had is discarded, by fstrim and by ext4 itself; it is counted how many lines of them the disk has then. Then a MiB of the last three is discarded, which
# the file system doesn't have.
export PATH=/sbin:/bin
fill() {
    cp /data /mnt/kept
    yes 'this was trimmed' | head -n 524288 > /mnt/large
    sync
    rm /mnt/large
    sync
}
left() {
    umount /mnt
    echo 3 > /proc/sys/vm/drop_caches
    echo "CHECK left_$1 $(tr -d '\0' < /dev/sda | grep -c 'this was trimmed')"
    mount -t ext4 /dev/sda /mnt
    echo "CHECK kept_$1 $(sha256sum < /mnt/kept)"
    umount /mnt
}
mkfs.ext4 -q /dev/sda 29696k || echo "CHECK failed: mkfs.ext4"
mount -t ext4 /dev/sda /mnt || echo "CHECK failed: mount"
fill
/sbin/fstrim /mnt || echo "CHECK failed: fstrim"
left fstrim
mount -t ext4 -o discard /dev/sda /mnt || echo "CHECK failed: mount -o discard"
fill
left discard
for at in 29 30 31; do
    dd if=/data of=/dev/sda bs=1M seek=$at conv=fsync 2> /dev/null
done
/sbin/blkdiscard -f -o $((30 << 20)) -l $((1 << 20)) /dev/sda || echo "CHECK failed: blkdiscard"
echo 3 > /proc/sys/vm/drop_caches
echo "CHECK discarded $(dd if=/dev/sda bs=1M skip=30 count=1 2> /dev/null | sha256sum)"
echo "CHECK disk $(sha256sum < /dev/sda)"
