# Linux merges four adjacent requests into one command; the device fails some of these for a sector of the last request.
echo mq-deadline > /sys/block/sda/queue/scheduler
echo 0 > /sys/block/sda/queue/nomerges
echo "CHECK read $(merged /dev/sda reads 200)"
echo "CHECK write $(merged /dev/sda writes 300)"
echo "CHECK failed_read $(merged /dev/sda reads 100)"
echo "CHECK failed_write $(merged /dev/sda writes 500)"
echo 1 > /sys/block/sda/device/queue_depth # without NCQ
echo "CHECK failed_dma_read $(merged /dev/sda reads 152)"
echo "CHECK failed_dma_write $(merged /dev/sda writes 400)"
