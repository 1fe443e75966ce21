# Makes a machine of what namespaces it is started in: this machine's files below an overlay that forgets, its own processes, network and devices, and farmd's
# unit as `make install` puts it in place. Then it becomes its systemd. tests/unit starts it in new namespaces, with the programs in FARMD.
# Usage: bash tests/parts/machine.sh FOLDER
set -eu
root=$1/root
mount --make-rprivate /
mkdir -p "$1/over" "$root"
mount -t tmpfs tmpfs "$1/over"
mkdir "$1/over/upper" "$1/over/work"
mount -t overlay overlay -o "lowerdir=/,upperdir=$1/over/upper,workdir=$1/over/work" "$root"
mount -t tmpfs -o mode=755 tmpfs "$root/run"
mount -t tmpfs -o mode=1777 tmpfs "$root/tmp"

# what is of the kernel, and not of these namespaces, can't be written
mount -t proc proc "$root/proc"
mount --bind "$root/proc/sys" "$root/proc/sys"
mount -o remount,bind,ro "$root/proc/sys"
mount -t sysfs -o ro sysfs "$root/sys"

# the control groups, as they are mounted here
grep -q '^[^ ]* /sys/fs/cgroup tmpfs' /proc/mounts && mount -t tmpfs -o mode=755 tmpfs "$root/sys/fs/cgroup"
awk '$3 ~ /^cgroup/ { print $2, $3, $4 }' /proc/mounts | while read -r place kind options; do
  [ -d "$root$place" ] || mkdir -p "$root$place"
  case $kind,$options in
  cgroup2,*) mount -t cgroup2 cgroup2 "$root$place" ;;
  cgroup,*name=*) mount -t cgroup -o "none,name=${options##*name=}" cgroup "$root$place" ;;
  *) mount -t cgroup -o "${options##*relatime,}" cgroup "$root$place" ;;
  esac
done

mount -t tmpfs -o mode=755 tmpfs "$root/dev"
for device in null zero full random urandom tty; do
  touch "$root/dev/$device"
  mount --bind "/dev/$device" "$root/dev/$device"
done
mkdir "$root/dev/pts" "$root/dev/shm"
mount -t devpts -o newinstance,ptmxmode=0666 devpts "$root/dev/pts"
mount -t tmpfs tmpfs "$root/dev/shm"
ln -s pts/ptmx "$root/dev/ptmx"
ln -s /proc/self/fd "$root/dev/fd"
for number in 0,stdin 1,stdout 2,stderr; do ln -s "fd/${number%,*}" "$root/dev/${number#*,}"; done
ip link set lo up
ip address add 10.9.9.1/24 dev lo # a peer's address that --allow 127.0.0.1 leaves out

install -d "$root/usr/local/bin" "$root/usr/local/lib/farmd" "$root/etc/default"
install -m 755 "$FARMD" "$root/usr/local/bin/farmd"
install -m 755 contrib/farmd-box "$root/usr/local/lib/farmd/farmd-box"
for name in gcc g++ cc c++ clang clang++; do ln -sf farmd-box "$root/usr/local/lib/farmd/$name"; done
install -m 644 contrib/farmd.service "$root/etc/systemd/system/farmd.service"
install -m 644 contrib/farmd.default "$root/etc/default/farmd"
printf '[Unit]\nDescription=farmd alone\nRequires=basic.target\nAfter=basic.target\nWants=farmd.service\n' >"$root/etc/systemd/system/farmd-alone.target"

cd "$root"
mkdir -p old
pivot_root . old
exec chroot . bash -c 'umount -l /old && exec env -i container=other PATH=/usr/sbin:/usr/bin:/sbin:/bin /lib/systemd/systemd --unit=farmd-alone.target'
