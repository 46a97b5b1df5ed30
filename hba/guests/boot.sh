# The sum of the disk that all of this came from.
echo "CHECK disk $(sha256sum < /dev/sda)"
