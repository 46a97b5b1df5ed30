# The machine is reset once, in the middle of many requests; after that the disk has what was written before.
if [ "$(dd if=/dev/sda bs=512 skip=32000 count=1 2> /dev/null | head -c 4)" = seen ]; then
    echo "CHECK again $(requests /dev/sda 1024 4096 32 2000 50)"
else
    printf seen | dd of=/dev/sda bs=512 seek=32000 conv=notrunc,fsync 2> /dev/null || echo "CHECK failed: dd"
    requests /dev/sda 1024 4096 32 1000000 50 &
    sleep 2
    echo "CHECK first done"
    reboot -f
fi
