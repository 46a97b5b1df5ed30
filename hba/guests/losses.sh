# After each boot the files are looked at that the disk has kept, and the file system. Then it is emptied, which trims, and filled anew, until some time
# after the first file the disk loses its power, which a read of its last sector brings about, and the machine is reset at once. `fs` of the kernel's
# command line is the file system. The host ends this.
echo "CHECK boot"
if [ "$fs" = xfs ]; then
    while read -r module; do insmod "/modules/$module" 2> /dev/null; done < /modules/more
fi
mount -t "$fs" /dev/sda /mnt || echo "CHECK failed: mount"
synced look /mnt
umount /mnt || echo "CHECK failed: umount"
case $fs in
ext4) e2fsck -fn /dev/sda > /tmp/said 2>&1 ;;
xfs) xfs_repair -n /dev/sda > /tmp/said 2>&1 ;;
esac
echo "CHECK sound $?"
mount -t "$fs" -o discard /dev/sda /mnt || echo "CHECK failed: second mount"
rm -rf /mnt/*
sync
at=$(($(date +%s) % 100000))
synced write /mnt $at | tee /tmp/written &
until grep -q synced /tmp/written 2> /dev/null; do sleep 0.1; done
sleep $((at % 2)).$((at % 10))
echo "CHECK loss"
dd if=/dev/sda of=/dev/null bs=512 skip=$(($(cat /sys/block/sda/size) - 8)) count=8 iflag=direct 2> /dev/null &
sleep 0.3
echo b > /proc/sysrq-trigger
