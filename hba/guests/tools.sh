# The tools for disks of ATA, one after the other. Of each run: its arguments behind `TOOL NAME`, what it printed behind `| `, what Linux wrote meanwhile behind `# `, and its
# status behind `ENDED NAME`. The kernel's command line may say `disk=plain`: then it is a disk without a write cache that doesn't rotate, and the tools show what differs.
export PATH=/sbin:/bin
while read -r module; do insmod "/modules/$module" 2> /dev/null; done < /modules/more
dmesg -n 1
dmesg -c > /dev/null
run() {
    name=$1
    shift
    echo "TOOL $name $*"
    # a shell of busybox may prefer its own program of that name
    [ ! -x "/sbin/$1" ] || { tool=/sbin/$1 && shift && set -- "$tool" "$@"; }
    "$@" > /tmp/said 2>&1
    status=$?
    sed 's/^/| /' /tmp/said
    dmesg -c | sed 's/^/# /'
    echo "ENDED $name $status"
}
# A file system with a file that stays and one that goes: what is free then is trimmed, and the first file is read again.
trim() {
    mount -t "$1" /dev/sda /mnt && cp /data /mnt/kept && dd if=/dev/zero of=/mnt/large bs=1M count=16 2> /dev/null && sync && rm /mnt/large && sync
    run "free_$1" stat -f -c '%S %b %f' /mnt
    run "discards_before_$1" awk '{print $14}' /sys/block/sda/stat
    run "fstrim_$1" fstrim -v /mnt
    run "discards_after_$1" awk '{print $14}' /sys/block/sda/stat
    umount /mnt
    echo 3 > /proc/sys/vm/drop_caches
    mount -t "$1" /dev/sda /mnt
    run "kept_$1" sha256sum /mnt/kept
    umount /mnt
}
plain() {
    run plain_identify hdparm -I /dev/sda
    run plain_settings smartctl -g all /dev/sda
    run plain_cache hdparm -W1 /dev/sda
    run plain_set smartctl --set=apm,128 --set=lookahead,off --set=standby,10 /dev/sda
    run plain_set_settings smartctl -g all /dev/sda
    run plain_offline smartctl -t offline /dev/sda
    run plain_conveyance smartctl -t conveyance /dev/sda
    dd if=/data of=/dev/sda bs=512 count=8 seek=1000 oflag=direct 2> /dev/null
    run plain_trim hdparm --please-destroy-my-drive --trim-sector-ranges 1000:8 /dev/sda
    run plain_sector hdparm --read-sector 1000 /dev/sda
    run plain_discard lsblk -D -b -n -r -o DISC-ALN,DISC-GRAN,DISC-ZERO,ROTA,SIZE,REV /dev/sda
    run plain_end smartctl -x /dev/sda
}
if [ "$disk" = plain ]; then
    plain
    return
fi
run identify hdparm -I /dev/sda
run words sg_sat_identify /dev/sda
run health smartctl -H /dev/sda
run all smartctl -x /dev/sda
run short smartctl -t short /dev/sda
run tested smartctl -l selftest /dev/sda
run long smartctl -t long /dev/sda
run tested_twice smartctl -l xselftest /dev/sda
run smart_off smartctl -s off /dev/sda
run smart_is_off smartctl -i /dev/sda
run smart_on smartctl -s on -S on /dev/sda
for it in 0 1; do
    run "cache_$it" hdparm -W$it /dev/sda
    run "cache_identify_$it" hdparm -I /dev/sda
done
run ahead_0 hdparm -A0 /dev/sda
run apm_127 hdparm -B127 /dev/sda
run set_identify hdparm -I /dev/sda
run ahead_1 hdparm -A1 /dev/sda
run apm_255 hdparm -B255 /dev/sda
run standby hdparm -y /dev/sda
run is_standby hdparm -C /dev/sda
run skips smartctl -n standby -i /dev/sda
run woken dd if=/dev/sda of=/dev/null bs=4096 count=1 iflag=direct
run is_woken hdparm -C /dev/sda
run sleep hdparm -Y /dev/sda
run awake dd if=/dev/sda of=/dev/null bs=4096 count=1 iflag=direct
run is_awake hdparm -C /dev/sda
run timer hdparm -S 12 /dev/sda
dd if=/data of=/dev/sda bs=512 count=1 seek=1000 oflag=direct 2> /dev/null
run sector hdparm --read-sector 1000 /dev/sda
run bad hdparm --yes-i-know-what-i-am-doing --make-bad-sector 1000 /dev/sda
run sector_bad hdparm --read-sector 1000 /dev/sda
run sector_next hdparm --read-sector 1001 /dev/sda
run read_bad dd if=/dev/sda of=/tmp/read bs=512 skip=1000 count=1
run repaired hdparm --yes-i-know-what-i-am-doing --repair-sector 1000 /dev/sda
run sector_again hdparm --read-sector 1000 /dev/sda
run read_again dd if=/dev/sda of=/tmp/read bs=512 skip=1000 count=1
run flagged hdparm --yes-i-know-what-i-am-doing --make-bad-sector f1000 /dev/sda
run sector_flagged hdparm --read-sector 1000 /dev/sda
run beyond hdparm --read-sector "$(cat /sys/block/sda/size)" /dev/sda
run zeroed hdparm --yes-i-know-what-i-am-doing --write-sector 1000 /dev/sda
run sector_zeroed hdparm --read-sector 1000 /dev/sda
dd if=/data of=/dev/sda bs=512 count=10 seek=2000 oflag=direct 2> /dev/null
run trimmed hdparm --please-destroy-my-drive --trim-sector-ranges 2001:8 /dev/sda
for it in 2000 2001 2008 2009; do
    run "sector_$it" hdparm --read-sector $it /dev/sda
done
for it in 0x00 0x03 0x04 0x07 0x10 0x11 0x30; do
    run "log_$it" sg_sat_read_gplog -H -L $it /dev/sda
done
run log_0x04_1 sg_sat_read_gplog -H -L 0x04 -p 1 /dev/sda
for it in 1 2 3 4 5 6; do
    run "log_0x30_$it" sg_sat_read_gplog -d -H -L 0x30 -p $it /dev/sda
done
# The host's logs: ATA PASS-THROUGH(16) of WRITE LOG EXT of two pages, of WRITE LOG DMA EXT, and of SMART WRITE LOG
dd if=/data of=/tmp/pages bs=512 count=2 2> /dev/null
run log_0x80_0 sg_sat_read_gplog -H -L 0x80 /dev/sda
run host_pio sg_raw -s 1024 -i /tmp/pages /dev/sda 85 0b 06 00 00 00 02 00 80 00 01 00 00 00 3f 00
run host_dma sg_raw -s 512 -i /tmp/pages /dev/sda 85 0d 06 00 00 00 01 00 9f 00 0f 00 00 00 57 00
run host_smart sg_raw -s 512 -i /tmp/pages /dev/sda 85 0a 06 00 d6 00 01 00 81 00 4f 00 c2 00 b0 00
for it in 1 2 3; do
    run "log_0x80_$it" sg_sat_read_gplog -H -L 0x80 -p $it /dev/sda
done
run log_0x81 sg_sat_read_gplog -H -L 0x81 /dev/sda
run log_0x9f_15 sg_sat_read_gplog -d -H -L 0x9f -p 15 /dev/sda
run phy sg_sat_phy_event /dev/sda
run discard lsblk -D -b -n -r -o DISC-ALN,DISC-GRAN,DISC-ZERO,ROTA,SIZE,REV,MODEL /dev/sda
mkfs.ext4 -q -E nodiscard /dev/sda
trim ext4
mkfs.xfs -q -f -K /dev/sda
trim xfs
run blkdiscard blkdiscard -f -v /dev/sda
for it in 0 1 4 5; do
    dd if=/data of=/dev/sda bs=1M seek=$it oflag=direct 2> /dev/null
done
run blkdiscard_part blkdiscard -f -v -o 1048576 -l 4194304 /dev/sda
run discarded sh -c 'dd if=/dev/sda bs=1M count=7 iflag=direct 2> /dev/null | sha256sum'
run mkfs_ext4 mkfs.ext4 -q -F /dev/sda
run mkfs_xfs mkfs.xfs -q -f /dev/sda
run end smartctl -x /dev/sda
