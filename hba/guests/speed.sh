# How long random requests of 4 KiB take, by depth and kind; the disk begins with blocks that are filled. `count` of the kernel's command line says how many there
# are at depth 32.
now() { cut -d' ' -f1 /proc/uptime; }
rate() { # depth, name, percent of writes, and `filled` if the blocks are as the image has them
    requests=$((${count:-20000} * (8 + $1) / 40))
    begun=$(now)
    echo "CHECK requests_$2_$1 $(requests /dev/sda 2048 4096 "$1" $requests "$3" ${4:+"$4"})"
    echo "CHECK seconds_$2_$1 $begun $(now) $requests"
}
for depth in 1 4 32; do
    rate $depth reads 0 filled
done
for depth in 1 4 32; do
    rate $depth mixed 50
    rate $depth writes 100
done
