# The controller is taken away while requests are made, and comes back, as many times as the kernel's command line says by `times`. What was kept before is
# there each time.
n=0
while [ $n -lt "${times:-2}" ]; do
    printf "%02d" $n | dd of=/dev/sda bs=512 seek=32000 conv=notrunc,fsync 2> /dev/null || echo "CHECK failed: dd"
    requests /dev/sda 1024 4096 32 100000000 50 > /dev/null 2>&1 &
    echo "CHECK up$n"
    while [ -b /dev/sda ]; do sleep 0.1; done
    kill $! 2> /dev/null # each of its requests fails from now on
    wait
    echo "CHECK gone$n"
    while [ ! -b /dev/sda ]; do sleep 0.1; done
    kept=$(dd if=/dev/sda bs=512 skip=32000 count=1 2> /dev/null | head -c 2)
    [ "$kept" = "$(printf "%02d" $n)" ] || echo "CHECK failed: it has $kept, not $n"
    n=$((n + 1))
done
echo "CHECK again $(requests /dev/sda 1024 4096 32 2000 50)"
echo 3 > /proc/sys/vm/drop_caches
echo "CHECK disk $(sha256sum < /dev/sda)"
