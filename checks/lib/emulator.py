"""qemu's arm64 machine `virt`, whose memory begins at 0x40000000: U-Boot at its prompt, and guests that are started without Xen."""

import atexit, os, pathlib, re, select, socket, struct, subprocess, tempfile, time

from lib.boards import quad
from lib.found import program
from lib.result import not_so
from lib.trees import Node, flattened, written

QEMU, UBOOT = "qemu-system-aarch64", "/usr/lib/u-boot/qemu_arm64/u-boot.bin"
IMAGE_AT = 0x70000000  # of the boot image: behind MEMORY_END, and below U-Boot at the end of 1 GiB

# what qemu gets, and what U-Boot is told before the script, for each kind of place that files are loaded from
KINDS = {
    "tftp": ([], []),
    "usb": (["-device", "usb-ehci,id=bus", "-device", "usb-storage,drive=disk,bus=bus.0"], ["pci enum", "usb start"]),
    "scsi": (["-device", "ich9-ahci,id=bus", "-device", "ide-hd,drive=disk,bus=bus.0"], ["pci enum", "scsi scan"]),
}

# In Xen's place: a kernel that writes the tree at x0 to the serial port of qemu's machine and turns the machine off.
KERNEL_CODE = [
    0xAA0003F3,  # mov x19, x0
    0xD2A12001,  # mov x1, #0x9000000
    0xB9400662,  # ldr w2, [x19, #4]    the tree's total size
    0x5AC00842,  # rev w2, w2
    0x38401663,  # ldrb w3, [x19], #1
    0xB9000023,  # str w3, [x1]
    0x71000442,  # subs w2, w2, #1
    0x54FFFFA1,  # b.ne -12
    0x52B08000,  # mov w0, #0x84000000
    0x72800100,  # movk w0, #8          PSCI SYSTEM_OFF
    0xD4000002,  # hvc #0
    0x14000000,  # b .
]


def kernel():
    """The kernel with the header of an arm64 image, which says that it may lie anywhere."""
    code = b"".join(word.to_bytes(4, "little") for word in KERNEL_CODE)
    return struct.pack("<IIQQQQQQII", 0x14000010, 0, 0, 0x1000, 0xA, 0, 0, 0, 0x644D5241, 0) + code


class Emulator:
    """An emulated machine, whose serial port is that of the process."""

    def __init__(self, words):
        self.qemu = subprocess.Popen(words, stdin=subprocess.PIPE, stdout=subprocess.PIPE, stderr=subprocess.STDOUT)
        atexit.register(self.end)  # also where something is not so
        self.told = b""

    def until(self, pattern, seconds=900):
        """What is told up to the end of a pattern, or to the end; what is told next begins behind it."""
        limit = time.monotonic() + seconds
        while not (found := re.search(pattern, self.told)):
            ready, _, _ = select.select([self.qemu.stdout], [], [], max(0, limit - time.monotonic()))
            data = os.read(self.qemu.stdout.fileno(), 65536) if ready else b""
            if not data:
                break
            self.told += data
        end = found.end() if found else len(self.told)
        text, self.told = self.told[:end], self.told[end:]
        return text

    def end(self):
        """Switches the machine off."""
        self.qemu.kill()
        self.qemu.wait()


class Machine(Emulator):
    """U-Boot at its prompt, with a folder that it loads files from: by tftp, and from a disk of a kind."""

    def __init__(self, folder, kind="tftp", machine="virt", memory="1G", processors=1):
        devices, lines = KINDS[kind]
        self.own = tempfile.TemporaryDirectory()
        words = ["qemu-system-aarch64", "-M", machine, "-cpu", "cortex-a57", "-smp", str(processors), "-m", memory]
        words += ["-bios", UBOOT, "-display", "none", "-monitor", f"unix:{self.own.name}/monitor,server=on,wait=off", "-serial", "stdio"]
        words += ["-netdev", f"user,id=n,tftp={folder}", "-device", "virtio-net-device,netdev=n"]
        words += ["-drive", f"if=none,id=disk,format=raw,snapshot=on,file=fat:{folder}", *devices] if devices else []
        super().__init__(words)
        self.version = re.search(rb"U-Boot (\S+)", self.until(rb"Hit any key"))[1].decode()
        self.stop_autoboot()
        for line in ["setenv ipaddr 10.0.2.15", "setenv serverip 10.0.2.2", *lines]:
            self.says(line)

    def stop_autoboot(self):
        """Types Ctrl-C until there is a prompt: on a busy machine the first may come after the two seconds that U-Boot waits."""
        for _ in range(24):
            self.qemu.stdin.write(b"\x03")
            self.qemu.stdin.flush()
            if b"=> " in self.until(rb"=> ", 5):
                break
        self.sends("echo up")
        self.until(rb"\nup\s+=> ")

    def sends(self, line):
        """Types a line at the prompt."""
        self.qemu.stdin.write(line.encode() + b"\n")
        self.qemu.stdin.flush()

    def says(self, line):
        """The answer to a line at the prompt, or what was told when the machine was reset."""
        self.sends(line)
        return self.until(rb"\n=> |Resetting CPU").decode(errors="replace").replace("\r", "").removesuffix("\n=> ").partition("\n")[2]

    def bytes_at(self, address, size):
        """What lies in the machine's memory, as the emulator has it."""
        file = pathlib.Path(self.own.name, "memory")
        with socket.socket(socket.AF_UNIX) as monitor:
            monitor.connect(f"{self.own.name}/monitor")
            monitor.sendall(f'pmemsave {address:#x} {size:#x} "{file}"\n'.encode())
            said = b""
            while said.count(b"(qemu) ") < 2:
                said += monitor.recv(65536)
        return file.read_bytes()

    def tree_at(self, address):
        """The flattened tree that lies at an address."""
        return self.bytes_at(address, int.from_bytes(self.bytes_at(address + 4, 4), "big"))


def machines_tree(machine, memory, processors=1):
    """The tree of an emulated machine itself."""
    with tempfile.TemporaryDirectory() as folder:
        file = pathlib.Path(folder, "machine.dtb")
        words = ["qemu-system-aarch64", "-M", f"{machine},dumpdtb={file}", "-cpu", "cortex-a57", "-smp", str(processors), "-m", memory]
        subprocess.run([*words, "-display", "none"], capture_output=True, check=True)
        return file.read_bytes()


def make_image(folder, source):
    """Makes the boot image of a script."""
    words = ["mkimage", "-A", "arm64", "-T", "script", "-C", "none", "-d", source, "boot.scr"]
    done = subprocess.run(words, cwd=folder, capture_output=True, text=True)
    if done.returncode or "AArch64 Linux Script" not in done.stdout:
        not_so(f"mkimage: status {done.returncode}, {done.stdout}{done.stderr}")


def run_script(machine, folder, script, image_at=IMAGE_AT):
    """Sources a script whose last line is put off, and answers the status of each line, or None where it has none."""
    lines = [f"{line}\necho status {number} $?\n" for number, line in enumerate(script[:-1])]
    (folder / "tried.source").write_text("".join(lines))
    make_image(folder, "tried.source")
    machine.says(f"tftpb {image_at:#x} boot.scr")
    told = machine.says(f"source {image_at:#x}")
    statuses = {int(number): int(status) for number, status in re.findall(r"^status (\d+) (\d+)$", told, re.MULTILINE)}
    return [statuses.get(number) for number in range(len(lines))]


def cells(*numbers):
    return b"".join(number.to_bytes(4, "big") for number in numbers)


def clock():
    """The partial tree of the machine's clock, at the place that it has on the host."""
    root = Node()
    root.props |= {"#address-cells": cells(2), "#size-cells": cells(2)}
    bus = root.new_child("passthrough")
    bus.props |= {"compatible": b"simple-bus\0", "ranges": b"", "#address-cells": cells(2), "#size-cells": cells(2)}
    wave = bus.new_child("apb-pclk")
    wave.props |= {"compatible": b"fixed-clock\0", "#clock-cells": cells(0), "clock-frequency": cells(24000000), "phandle": cells(7)}
    node = bus.new_child("pl031@9010000")
    node.props |= {"compatible": b"arm,pl031\0arm,primecell\0", "reg": quad(0x9010000, 0x1000), "interrupts": cells(0, 2, 4)}
    node.props |= {"interrupt-parent": cells(65000), "clocks": cells(7), "clock-names": b"apb_pclk\0"}
    node.props |= {"xen,reg": quad(0x9010000, 0x1000, 0x9010000), "xen,path": b"/pl031@9010000\0", "xen,force-assign-without-iommu": b""}
    return written(root)


class Built:
    """What is built of a configuration: the outputs by their names, the report, and each guest's processors and pages."""

    def __init__(self, configuration, files):
        with tempfile.TemporaryDirectory() as name, tempfile.TemporaryDirectory() as out:
            folder, out = pathlib.Path(name), pathlib.Path(out)
            for file, data in {**files, "imagebuilder.cfg": configuration.encode()}.items():
                (folder / file).write_bytes(data)
            done = subprocess.run([program("dom0less"), "-c", "imagebuilder.cfg", "-w", out], cwd=folder, capture_output=True, text=True)
            if done.returncode or done.stderr:
                not_so(f"status {done.returncode}, {done.stderr}")
            self.outputs = {path.name: path.read_bytes() for path in out.iterdir()}
        self.report, self.script = done.stdout, self.outputs["boot.source"].decode()
        heads = re.findall(r"^domU\d+ \S+ cpus (\d+) ram (\d+)", self.report, re.MULTILINE)
        self.guests = [(int(cpus), int(ram)) for cpus, ram in heads]
        self.trees = [flattened(self.outputs[f"domU{n}.dtb"]) for n in range(len(self.guests))]


# What the emulator has at other places than Xen, and cannot move: the distributor and the redistributors, and the PL011 with its
# interrupt. They are put into a guest's tree in place of Xen's.
EMULATORS = {
    b"arm,gic-v3": {"reg": quad(0x8000000, 0x10000, 0x80A0000, 0xF60000)},
    b"arm,sbsa-uart": {"reg": quad(0x9000000, 0x1000), "interrupts": cells(0, 1, 4)},
}


def for_emulator(tree):
    """A guest's tree with the emulator's places in those properties of EMULATORS, and nothing else changed."""
    for _, node in nodes(tree):
        for name in node.props.get("compatible", b"").split(b"\0"):
            node.props |= EMULATORS.get(name, {})
    return tree


def nodes(node, path=""):
    yield path or "/", node
    for name, child in node.children.items():
        yield from nodes(child, f"{path}/{name}")


# Copies a file to its address, and enters the kernel with the tree at x0, as the arm64 boot protocol has it.
ENTERING = [
    0x580001C5,  #         ldr x5, from
    0x580001E6,  #         ldr x6, to
    0x58000207,  #         ldr x7, end
    0xEB0700BF,  # copy:   cmp x5, x7
    0x54000082,  #         b.hs done
    0xA8C124A8,  #         ldp x8, x9, [x5], #16
    0xA88124C8,  #         stp x8, x9, [x6], #16
    0x17FFFFFC,  #         b copy
    0x58000180,  # done:   ldr x0, tree
    0xAA1F03E1,  #         mov x1, xzr
    0xAA1F03E2,  #         mov x2, xzr
    0xAA1F03E3,  #         mov x3, xzr
    0x58000144,  #         ldr x4, kernel
    0xD61F0080,  #         br x4               then the five numbers
]
FIRST = 0x40200000  # the emulator puts a tree of its own below


def entering(copied, tree, kernel):
    """The code that is entered first, with (from, to, end) of the file that it copies."""
    return b"".join(word.to_bytes(4, "little") for word in ENTERING) + struct.pack("<5Q", *copied, tree, kernel)


def started(files, kernel, tree, end, gigabytes=2, processors=1, seconds=3000):
    """What the machine says when the kernel is entered with the tree, where files lie at their addresses. The emulator puts them
    there; but a file in the first 2 MiB of its memory, where it has a tree of its own, is copied there first. What enters the
    kernel, and the file that is copied, lie at the end of the emulator's memory, which is no guest's."""
    last = 0x40000000 + (gigabytes << 30)
    stub, copied = last - (2 << 20), (0, 0, 0)
    with tempfile.TemporaryDirectory() as name:
        words = ["qemu-system-aarch64", "-M", "virt,gic-version=3", "-cpu", "cortex-a57", "-smp", str(processors), "-m", f"{gigabytes}G"]
        words += ["-display", "none", "-monitor", "none", "-serial", "stdio", "-no-reboot"]
        for number, (address, data) in enumerate(files):
            place = address if address >= FIRST else last - (256 << 20)
            if place != address:
                copied = (place, address, place + len(data))
            pathlib.Path(name, f"file{number}").write_bytes(data)
            words += ["-device", f"loader,file={name}/file{number},addr={place:#x},force-raw=on"]
        pathlib.Path(name, "stub").write_bytes(entering(copied, tree, kernel))
        words += ["-device", f"loader,file={name}/stub,addr={stub:#x},force-raw=on", "-device", f"loader,addr={stub:#x},cpu-num=0"]
        emulator = Emulator(words)
        console = emulator.until(end, seconds)
        emulator.end()
    return console
