"""What a guest is made of: Debian's packages, its kernel, and the first file system of the guest.

All of it is kept in one folder outside the repository, and is made again only if it is missing or has changed.
"""

import fcntl
import glob
import hashlib
import lzma
import os
import re
import shutil
import subprocess
import tempfile

HERE = os.path.dirname(os.path.abspath(__file__))
# The packages' programs that are looked for, and those that the guest has beside busybox.
NEEDED = ["qemu-system-x86_64", "cpio", "depmod", "nvme", "blkzone", "setpriv", "busybox"]
GUEST_PROGRAMS = ["nvme", "blkzone"]
# What every guest loads, where its kernel has it as a module. File systems check their blocks with the last five.
MODULES = ["nvme", "virtio_pci", "virtio_console", "9p", "9pnet_virtio", "crc32c_generic", "crc32_generic",
           "xxhash_generic", "blake2b_generic", "sha256_generic"]
FOLDERS = "bin sbin usr/bin usr/sbin dev proc sys tmp in share mnt etc run".split()
XZ_MAGIC = b"\xfd7zXZ\x00"
SEARCH = os.environ.get("PATH", "") + ":/sbin:/usr/sbin"


class Fault(Exception):
    """Why there is no guest."""


def cache_folder():
    """Where all that is prepared is kept."""
    base = os.environ.get("XDG_CACHE_HOME") or os.path.join(os.path.expanduser("~"), ".cache")
    return os.path.join(base, "zonedisk-guest")


def locked(cache):
    """Holds the folder until what is returned is closed."""
    os.makedirs(cache, exist_ok=True)
    file = open(os.path.join(cache, "lock"), "w", encoding="utf-8")
    fcntl.flock(file, fcntl.LOCK_EX)
    return file


def begin_work(cache):
    """A folder for one guest, which is removed after the guest. It is held until what is returned first is closed."""
    with locked(cache):
        for old in glob.glob(os.path.join(cache, "run-*")):
            if held(old) is not None:
                shutil.rmtree(old, ignore_errors=True)
        folder = tempfile.mkdtemp(dir=cache, prefix="run-")
        return held(folder), folder


def held(folder):
    """Holds a folder, unless another program does."""
    holder = os.open(folder, os.O_RDONLY | os.O_DIRECTORY)
    try:
        fcntl.flock(holder, fcntl.LOCK_EX | fcntl.LOCK_NB)
        return holder
    except BlockingIOError:
        os.close(holder)
        return None


def logged(cache, words, **given):
    """Runs a program whose words go to a log; whether it succeeded."""
    with open(os.path.join(cache, "log"), "ab") as log:
        return subprocess.run(words, stdout=log, stderr=log, check=False, **given).returncode == 0


def find(name):
    """Where a program is, or nothing."""
    return shutil.which(name, path=SEARCH)


def install_packages(cache):
    """Installs what is missing, by the names in the file `packages`."""
    if all(find(name) for name in NEEDED):
        return
    with open(os.path.join(HERE, "packages"), encoding="utf-8") as lines:
        packages = lines.read().split()
    quiet = dict(os.environ, DEBIAN_FRONTEND="noninteractive")
    wait = ["-o", "DPkg::Lock::Timeout=300"]
    logged(cache, ["apt-get", "update"])
    logged(cache, ["apt-get", *wait, "install", "-y", "--no-install-recommends", *packages], env=quiet)
    missing = [name for name in NEEDED if not find(name)]
    if missing:
        raise Fault(f"these programs are missing: {' '.join(missing)}; see {cache}/log")


def image_package(kernel):
    """The package of a kernel's image: of 6.1, which is Debian's own, or of a later one."""
    meta = "linux-image-amd64" if kernel == "6.1" else f"linux-image-{kernel}-amd64"
    shown = subprocess.run(["apt-cache", "depends", meta], stdout=subprocess.PIPE, text=True, check=False).stdout
    found = re.search(r"Depends: (linux-image-[0-9]\S*)", shown)
    if not found:
        raise Fault(f"there is no package {meta}")
    return found.group(1)


def unpack_image(image, target):
    """Writes the kernel's ELF file, which QEMU starts at once: an emulated machine needs long to unpack it."""
    with open(image, "rb") as file:
        data = file.read()
    at = data.find(XZ_MAGIC)
    try:
        data = lzma.LZMADecompressor().decompress(data[at:]) if at >= 0 else data
    except lzma.LZMAError:
        pass
    with open(target, "wb") as file:
        file.write(data)


def prepare_kernel(cache, kernel):
    """The folder of a kernel, unpacked and not installed."""
    tree = os.path.join(cache, f"kernel-{kernel}")
    if os.path.exists(os.path.join(tree, "vmlinux")):
        return tree
    shutil.rmtree(tree, ignore_errors=True)
    with tempfile.TemporaryDirectory(dir=cache) as folder:
        if not logged(cache, ["apt-get", "download", image_package(kernel)], cwd=folder):
            raise Fault(f"the kernel {kernel} could not be downloaded; see {cache}/log")
        logged(cache, ["dpkg", "-x", *glob.glob(os.path.join(folder, "*.deb")), tree])
    if not logged(cache, ["depmod", "-b", tree, version_of(tree)]):
        raise Fault(f"the kernel {kernel} could not be unpacked; see {cache}/log")
    new = os.path.join(tree, "vmlinux.new")
    unpack_image(glob.glob(os.path.join(tree, "boot", "vmlinuz-*"))[0], new)
    os.rename(new, os.path.join(tree, "vmlinux"))
    return tree


def version_of(tree):
    """The version of an unpacked kernel."""
    found = glob.glob(os.path.join(tree, "lib", "modules", "*"))
    if len(found) != 1:
        raise Fault(f"{tree} has no kernel")
    return os.path.basename(found[0])


def module_name(path):
    """The name of a module, by the path of its file."""
    return os.path.basename(path).split(".")[0].replace("-", "_")


def module_files(tree):
    """For each module of a kernel the files that it needs, its own one first."""
    found = {}
    with open(os.path.join(tree, "lib", "modules", version_of(tree), "modules.dep"), encoding="utf-8") as lines:
        for line in lines:
            own, _, others = line.partition(":")
            found[module_name(own)] = [own, *others.split()]
    return found


def known_modules(tree, names):
    """Those of some modules that a kernel has as modules, in their order."""
    known = module_files(tree)
    return [name for name in names if name.replace("-", "_") in known]


def put_modules(tree, root, names):
    """Copies modules of a kernel, with those that they need, into a file system."""
    known = module_files(tree)
    folder = os.path.join("lib", "modules", version_of(tree))
    for file in {file for name in names for file in known[name.replace("-", "_")]}:
        put_file(os.path.join(tree, folder, file), os.path.join(root, folder, file))


def put_file(source, target):
    """Copies a file, and makes the folders above it."""
    os.makedirs(os.path.dirname(target), exist_ok=True)
    shutil.copy2(source, target)


def put_libraries(program, root):
    """Copies the shared libraries of a program, if it has any."""
    shown = subprocess.run(["ldd", program], stdout=subprocess.PIPE, stderr=subprocess.DEVNULL, text=True, check=False)
    for library in re.findall(r"(/\S+) \(0x", shown.stdout):
        put_file(library, root + library)


def put_programs(root):
    """Puts busybox, with all its names, and the guest's other programs into a file system."""
    busybox = find("busybox")
    put_file(busybox, os.path.join(root, "bin", "busybox"))
    for name in subprocess.run([busybox, "--list"], stdout=subprocess.PIPE, text=True, check=True).stdout.split():
        if name != "busybox":
            os.symlink("busybox", os.path.join(root, "bin", name))
    for name in GUEST_PROGRAMS:
        put_file(find(name), os.path.join(root, "bin", name))
        put_libraries(find(name), root)


def archive(root, target):
    """Writes a folder as an archive that the kernel unpacks."""
    names = subprocess.run(["find", "."], cwd=root, stdout=subprocess.PIPE, check=True).stdout
    with open(target, "wb") as file:
        words = ["cpio", "-o", "-H", "newc", "--quiet", "-R", "0:0"]
        subprocess.run(words, cwd=root, input=names, stdout=file, check=True)


def base_name(tree, kernel):
    """The name of the first file system's archive: another one for other contents."""
    digest = hashlib.sha256(version_of(tree).encode())
    for name in ["init", "guest_system.py"]:
        with open(os.path.join(HERE, name), "rb") as file:
            digest.update(file.read())
    return f"base-{kernel}-{digest.hexdigest()[:16]}"


def prepare_base(cache, tree, kernel):
    """The archive of the first file system, with what every guest has."""
    path = os.path.join(cache, base_name(tree, kernel))
    if os.path.exists(path):
        return path
    for old in glob.glob(os.path.join(cache, f"base-{kernel}-*")):
        os.remove(old)
    with tempfile.TemporaryDirectory(dir=cache) as root:
        for folder in FOLDERS:
            os.makedirs(os.path.join(root, folder))
        put_programs(root)
        put_modules(tree, root, known_modules(tree, MODULES))
        lists = os.path.join("lib", "modules", version_of(tree))
        for name in ["modules.dep", "modules.builtin"]:
            put_file(os.path.join(tree, lists, name), os.path.join(root, lists, name))
        put_file(os.path.join(HERE, "init"), os.path.join(root, "init"))
        os.chmod(os.path.join(root, "init"), 0o755)
        archive(root, path + ".new")
    os.rename(path + ".new", path)
    return path


def prepare(cache, kernel):
    """Makes all that is missing: the folder of the kernel, and the archive of the first file system."""
    with locked(cache):
        install_packages(cache)
        tree = prepare_kernel(cache, kernel)
        return tree, prepare_base(cache, tree, kernel)
