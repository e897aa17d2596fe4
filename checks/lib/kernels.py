"""What is started as a guest: a small kernel that tells its device tree, and what Linux runs as its first process."""

import re, struct

# Writes the tree at x0 to the serial port, in lines of `@`, a mark and 32 bytes in hexadecimal, and `$` behind the last.
CODE = [
    0xAA0003F3,  # start:  mov x19, x0
    0xD2A00001,  #         mov x1, #UART        put in below
    0xB9400662,  #         ldr w2, [x19, #4]     the tree's total size
    0x5AC00842,  #         rev w2, w2
    0x52800805,  # line:   mov w5, #'@'
    0xB9000025,  #         str w5, [x1]
    0x52800005,  #         mov w5, #MARK         put in below
    0xB9000025,  #         str w5, [x1]
    0x52800406,  #         mov w6, #32
    0x38401663,  # byte:   ldrb w3, [x19], #1
    0x53041C64,  #         ubfx w4, w3, #4, #4
    0x94000010,  #         bl digit
    0x12000C64,  #         and w4, w3, #15
    0x9400000E,  #         bl digit
    0x51000442,  #         sub w2, w2, #1
    0x34000062,  #         cbz w2, last
    0x710004C6,  #         subs w6, w6, #1
    0x54FFFF01,  #         b.ne byte
    0x52800145,  # last:   mov w5, #10
    0xB9000025,  #         str w5, [x1]
    0x35FFFE02,  #         cbnz w2, line
    0x52800485,  #         mov w5, #'$'
    0xB9000025,  #         str w5, [x1]
    0x52800145,  #         mov w5, #10
    0xB9000025,  #         str w5, [x1]
    0xD503207F,  # end:    wfi
    0x17FFFFFF,  #         b end
    0x7100289F,  # digit:  cmp w4, #10
    0x1100C085,  #         add w5, w4, #48
    0x11015C84,  #         add w4, w4, #87
    0x1A8430A5,  #         csel w5, w5, w4, lo
    0xB9000025,  #         str w5, [x1]
    0xD65F03C0,  #         ret
]
UART_AT, MARK_AT = 1, 6


def telling_kernel(mark, uart=0x22000000):
    """The kernel that tells its tree in lines that begin with `@` and a mark, with the header of an arm64 image."""
    code = list(CODE)
    code[UART_AT] |= uart >> 16 << 5
    code[MARK_AT] = 0x52800005 | ord(mark) << 5
    header = struct.pack("<IIQQQQQQII", 0x14000010, 0, 0, 0x2000, 0xA, 0, 0, 0, 0x644D5241, 0)
    return header + b"".join(word.to_bytes(4, "little") for word in code)


def told_tree(mark, console):
    """The tree that a telling kernel wrote among other lines, or None where it did not come to its end."""
    lines = re.findall(rf"@{mark}([0-9a-f]+)\r?\n".encode(), console)
    data = bytes.fromhex(b"".join(lines).decode())
    return data if len(data) > 8 and int.from_bytes(data[4:8], "big") == len(data) else None


INIT = """#!/bin/busybox sh
b=/bin/busybox
$b mount -t proc p /proc
$b mount -t sysfs s /sys
echo "@cmdline $($b cat /proc/cmdline)"
$b grep "System RAM" /proc/iomem | $b sed 's/^/@memory /'
$b grep "Kernel " /proc/iomem | $b sed 's/^/@code /'
$b grep processor /proc/cpuinfo | $b sed 's/^/@cpu /'
for device in /sys/bus/platform/devices/* /sys/bus/amba/devices/*; do
    [ -e "$device/of_node" ] && echo "@device $($b basename "$device") $($b basename "$($b readlink "$device/driver")")"
done
$b sed 's/^/@interrupt /' /proc/interrupts
$b xxd -p -c 48 /sys/firmware/fdt | $b sed 's/^/@fdt /'
[ -e /proc/device-tree/chosen/linux,initrd-start ] && echo "@initrd $($b xxd -p /proc/device-tree/chosen/linux,initrd-start)"
echo @end
$b poweroff -f
"""


def archive(files):
    """An archive that Linux unpacks as its first file system (cpio, newc), of (name, mode, bytes)."""
    out = b""
    for number, (name, mode, data) in enumerate([*files, ("TRAILER!!!", 0, b"")]):
        head = [number + 1, mode, 0, 0, 1, 0, len(data), 0, 0, 0, 0, len(name) + 1, 0]
        out += b"070701" + b"".join(b"%08X" % word for word in head) + name.encode() + b"\0"
        out += bytes(-len(out) % 4) + data
        out += bytes(-len(out) % 4)
    return out


def ramdisk(busybox):
    """The file system whose first process tells what Linux found, and turns the machine off."""
    folders = [(name, 0o40755, b"") for name in ("bin", "proc", "sys", "dev")]
    return archive([*folders, ("bin/busybox", 0o100755, busybox), ("init", 0o100755, INIT.encode())])


def told(word, console):
    """The rest of each line that the first process told under a word."""
    return [line.decode().strip() for line in re.findall(rf"@{word} ([^\r\n]*)".encode(), console)]
