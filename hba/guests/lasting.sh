# A sector can never be read: alone, among many reads that are on their way at once, and alone again; a sector of the next page can.
echo 2 > /sys/block/sda/queue/nomerges # each request is a command of its own
one() {
    dd if=/dev/sda bs=512 skip="$1" count=1 iflag=direct 2> /dev/null | wc -c
}
echo "CHECK first $(one 1000)"
echo "CHECK reads $(requests /dev/sda 512 4096 32 5000 0 filled)"
echo "CHECK again $(one 1000)"
echo "CHECK beside $(one 1008)"
