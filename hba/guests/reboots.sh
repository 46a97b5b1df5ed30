# The machine is reset in the middle of requests, as many times as the kernel's command line says by `times`, which the disk counts.
seen=$(dd if=/dev/sda bs=512 skip=32000 count=1 2> /dev/null | tr -d '\0' | wc -c)
if [ "$seen" -lt "${times:-3}" ]; then
    printf "%0$((seen + 1))d" 0 | dd of=/dev/sda bs=512 seek=32000 conv=notrunc,fsync 2> /dev/null || echo "CHECK failed: dd"
    requests /dev/sda 1024 4096 32 100000000 50 > /dev/null &
    sleep 1
    echo "CHECK reset$seen done"
    reboot -f
fi
echo "CHECK resets $seen"
echo "CHECK again $(requests /dev/sda 1024 4096 32 2000 50)"
