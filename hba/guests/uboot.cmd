# The script that U-Boot runs: it loads a file, reads sectors, writes two and reads them again.
load scsi 0:1 ${kernel_addr_r} large.bin
crc32 ${kernel_addr_r} ${filesize}
scsi read ${ramdisk_addr_r} 0x800 0x400
crc32 ${ramdisk_addr_r} 0x80000
mw.b ${ramdisk_addr_r} 0x5a 0x400
scsi write ${ramdisk_addr_r} 0x20 2
mw.b ${ramdisk_addr_r} 0 0x400
scsi read ${ramdisk_addr_r} 0x20 2
crc32 ${ramdisk_addr_r} 0x400
echo CHECK end
