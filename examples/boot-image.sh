#!/bin/sh
# An initramfs verifies the image of a system before it mounts it, and uses an older image if the new one does not verify. The images can
# be larger than the memory of the machine. The script needs only jose and busybox.
set -eu
umask 077
# Another program may have the name jose: see EXIT STATUS in jose(1).
[ "$(jose 2>&1)" = 'jose: 1 Usage' ] || { echo 'this needs the jose of Lakhdzeva' >&2; exit 1; }
# The script overwrites nothing: it ends if one of these exists.
for name in boot.jwk old.img old.sig new.img new.sig why; do
    if [ -e "$name" ] || [ -h "$name" ]; then
        echo "run this in a new folder, without $name" >&2
        exit 1
    fi
done

# Where images are made: a key, which the initramfs gets too. The key can sign as well, so nobody else may read the initramfs.
jose jwk gen -i '{"alg":"HS256","kid":"boot"}' -o boot.jwk
for name in old new; do
    head -c 3000000 /dev/urandom > "$name.img" # here: mksquashfs system "$name.img"
    jose jws sig -c -k boot.jwk -I "$name.img" -o "$name.sig" -O /dev/null
done

# In the initramfs. jose holds 4,096 octets of an image at a time, whatever its size. The image that is mounted is the one that was
# verified only if nobody can write to the disk meanwhile. An old image verifies as long as its signature is there: delete both.
boot() {
    for name in new old; do
        if jose jws ver -i "$name.sig" -I "$name.img" -k boot.jwk 2>why; then
            echo "$name" # here: mount -o loop,ro "$name.img" /newroot && exec switch_root /newroot /sbin/init
            return
        fi
        echo "$name.img: $(cat why)" >&2
    done
    return 1
}
[ "$(boot)" = new ]
