#!/usr/bin/env python3
"""release.py [--check] [--deb PACKAGE.deb] ARCHIVE.tar.gz

Makes one archive of a tree whose gate has passed (`.ci/run`), in which the static libraries are built too (`tools/kernel_library.py`).
The tree has to be as it was committed.

The archive has a folder acpiroute-VERSION: the program, the static libraries with their headers, the manual page, the examples
with their reports, the scripts for users, the licence, the kit's version line, and the checksums of all files. Who unpacks it
needs neither the kit nor a proof: `./run-examples` there checks the sums and runs every example.

The archive's bytes depend on the files alone: the same tree makes the same archive. With --check, the archive is then unpacked into
a folder of another name, and its examples are run in an empty environment.

With --deb, a Debian package is made too, by `dpkg-deb`: the program, its manual page and the scripts as acpiroute-machine-text,
acpiroute-report-graph and acpiroute-show-value, the headers and the static libraries, and the pages and examples in
/usr/share/doc/acpiroute. With --check it is unpacked, its program and scripts are run, and `lintian` is run where it is installed, which
may find no error."""
import argparse
import gzip
import hashlib
import io
import os
import re
import shutil
import subprocess
import sys
import tarfile
import tempfile

TOP = os.path.dirname(os.path.dirname(os.path.abspath(__file__)))
PROGRAM = "crates/acpiroute/out/acpiroute"
LIBRARY = "crates/acpiroute_c/out/libacpiroute_c.a"
# The scripts for users, which a package has as commands too, and what they share.
TOOLS = ["tools/machine_text.py", "tools/report_graph.py", "tools/show_value.py"]
SHARED = "tools/usage.py"
# The libraries for a kernel, and what was found in them.
FOR_KERNELS = "crates/acpiroute_c/out/kernel"
FOUND = f"{FOR_KERNELS}/kernel_library.txt"
KERNEL_LIBRARIES = ["libacpiroute_kernel.a", "libacpiroute_kernel_no_sse.a", "kernel_library.txt"]
FOLDERS = ["examples", "include", "man"]
FILES = ["LICENSE", "CHANGELOG.md", "docs/EMBEDDING.md", "docs/REFUSALS.md", "docs/OPCODES.md", SHARED, *TOOLS]
RUN_EXAMPLES = """#!/bin/sh
# Checks the sums of this folder's files, and runs every example: the program, the tools, and hosts in C and, where rustc is
# installed, in Rust; and, where QEMU is installed, a kernel. It needs Python 3, and for the hosts and the kernel a C compiler.
set -eu
cd "$(dirname "$0")"
sha256sum --check --quiet SHA256SUMS
examples/check.py bin/acpiroute
if command -v cc > /dev/null; then
    examples/embedding.py --library lib/libacpiroute.a --program bin/acpiroute
else
    echo "cc is not installed: the hosts are left out"
fi
if command -v gcc > /dev/null && command -v qemu-system-x86_64 > /dev/null; then
    examples/kernel/run.py lib/libacpiroute_kernel.a
    examples/kernel/run.py lib/libacpiroute_kernel_no_sse.a
else
    echo "gcc or qemu-system-x86_64 is not installed: the kernel is left out"
fi
"""


def output_of(words, folder=TOP):
    return subprocess.run(words, cwd=folder, capture_output=True, text=True, check=True).stdout


def read(name):
    with open(os.path.join(TOP, name), "rb") as file:
        return file.read()


def version():
    return re.search(r"(?m)^## ([0-9][0-9.]*)", read("CHANGELOG.md").decode()).group(1)


def committed():
    """The committed files; an error where one was changed since."""
    if output_of(["git", "status", "--porcelain"]):
        sys.exit("release.py: the tree is not as it was committed")
    return output_of(["git", "ls-files"]).splitlines()


def static_library():
    """The library and the part of the kit by which it takes memory, as one archive of objects."""
    kit = os.path.dirname(os.path.dirname(os.path.realpath(shutil.which("rt"))))
    with tempfile.TemporaryDirectory() as folder:
        made = os.path.join(folder, "libacpiroute.a")
        script = f"create {made}\naddlib {os.path.join(TOP, LIBRARY)}\naddlib {kit}/c/liblibc_c.a\nsave\nend\n"
        subprocess.run(["ar", "-M"], input=script, text=True, check=True)
        subprocess.run(["objcopy", "--enable-deterministic-archives", made], check=True)
        with open(made, "rb") as file:
            return file.read()


def contents():
    """The files of the archive, by their names: the bytes, and whether it is run."""
    files = {name: (read(name), os.access(os.path.join(TOP, name), os.X_OK))
             for name in committed() if name in FILES or name.split("/")[0] in FOLDERS}
    files["bin/acpiroute"] = (read(PROGRAM), True)
    files["lib/libacpiroute.a"] = (static_library(), False)
    for name in KERNEL_LIBRARIES:
        files[f"lib/{name}"] = (read(f"{FOR_KERNELS}/{name}"), False)
    files["KIT"] = (output_of(["rt", "version"]).encode(), False)
    files["run-examples"] = (RUN_EXAMPLES.encode(), True)
    sums = "".join(f"{hashlib.sha256(data).hexdigest()}  {name}\n" for name, (data, _) in sorted(files.items()))
    files["SHA256SUMS"] = (sums.encode(), False)
    return files


def packed(files, folder):
    """The archive, whose bytes depend on the files alone."""
    packed_bytes = io.BytesIO()
    stream = gzip.GzipFile(fileobj=packed_bytes, mode="wb", mtime=0)
    with stream, tarfile.open(fileobj=stream, mode="w", format=tarfile.PAX_FORMAT) as archive:
        for name, (data, is_run) in sorted(files.items()):
            entry = tarfile.TarInfo(f"{folder}/{name}")
            entry.size, entry.mode = len(data), 0o755 if is_run else 0o644
            archive.addfile(entry, io.BytesIO(data))
    return packed_bytes.getvalue()


def unpacked_runs(archive):
    """Runs the examples of an archive from another folder, in an environment with nothing but a path."""
    with tempfile.TemporaryDirectory() as folder:
        subprocess.run(["tar", "-xzf", os.path.abspath(archive), "--strip-components=1", "-C", folder], check=True)
        path = os.pathsep.join(it for it in os.environ["PATH"].split(os.pathsep) if not os.path.exists(os.path.join(it, "rt")))
        return subprocess.run(["./run-examples"], cwd=folder, env={"PATH": path}).returncode


# ---- the Debian package


def tool_name(file):
    """The name of a script as a command."""
    return "acpiroute-" + os.path.basename(file).removesuffix(".py").replace("_", "-")


def libc_wanted(program):
    """The newest version of the C library whose symbols the program uses."""
    found = re.findall(r"GLIBC_([0-9.]+)", output_of(["objdump", "-T", program]))
    return max(found, key=lambda it: [int(n) for n in it.split(".")])


def author():
    """The name and the address of who made the last commit."""
    return output_of(["git", "log", "-1", "--format=%an <%ae>"]).strip()


def control(size):
    return f"""Package: acpiroute
Version: {version()}
Architecture: amd64
Maintainer: {author()}
Installed-Size: {size // 1024 + 1}
Depends: libc6 (>= {libc_wanted(os.path.join(TOP, PROGRAM))}), python3:any
Suggests: acpica-tools, graphviz, pciutils
Section: utils
Priority: optional
Description: route the PCI interrupts of a machine by its ACPI tables
 acpiroute reads the ACPI tables and registers of a machine as text,
 interprets their AML, and chooses one interrupt for each PCI interrupt link
 device, so that the busiest interrupt serves as few sources as possible. Its
 report holds a certificate, which a second command checks.
"""


def changelog():
    date = output_of(["git", "log", "-1", "--format=%aD"]).strip()
    return f"acpiroute ({version()}) unstable; urgency=medium\n\n  * CHANGELOG.md says what changed.\n\n -- {author()}  {date}\n"


def licence():
    """The licence in the form of Debian, whose name and holder are those in LICENSE."""
    form = "https://www.debian.org/doc/packaging-manuals/copyright-format/1.0/"
    lines = read("LICENSE").decode().splitlines()
    name, holder = lines[0].removesuffix(" License"), next(it for it in lines if it.startswith("Copyright "))
    text = "".join(f" {it}\n" if it.strip() else " .\n" for it in lines[1:])
    return f"Format: {form}\n\nFiles: *\nCopyright: {holder.removeprefix('Copyright (c) ')}\nLicense: {name}\n\nLicense: {name}\n{text}"


def zipped(data):
    return gzip.compress(data, 9, mtime=0)


def by_debian(data):
    """A script that is run by Debian's own Python; any other file as it is."""
    return data.replace(b"#!/usr/bin/env python3", b"#!/usr/bin/python3", 1)


def installed(files):
    """The files of the package by their places: the bytes, and whether it is run."""
    manual, pages, libraries = "usr/share/man/man1", "usr/share/doc/acpiroute", "usr/lib/x86_64-linux-gnu"
    found = {
        "usr/bin/acpiroute": (stripped(os.path.join(TOP, PROGRAM)), True),
        **{f"usr/{it}": files[it] for it in ("include/acpiroute.h", "include/acpiroute_memory.h")},
        **{f"{libraries}/{os.path.basename(it)}": files[it] for it in files if it.startswith("lib/") and it.endswith(".a")},
        f"{manual}/acpiroute.1.gz": (zipped(files["man/acpiroute.1"][0]), False),
        f"{pages}/copyright": (licence().encode(), False),
        f"{pages}/changelog.gz": (zipped(changelog().encode()), False),
        f"{pages}/KIT": files["KIT"],
        f"{pages}/README.md": (read("README.md"), False),
    }
    for name, (data, is_run) in files.items():
        if name.startswith("tools/"):
            found[f"usr/share/acpiroute/{os.path.basename(name)}"] = (by_debian(data), name in TOOLS)
        elif name.endswith(".md") and not name.startswith("examples/"):
            found[f"{pages}/{os.path.basename(name)}"] = (data, False)
        elif name.startswith("examples/"):
            found[f"{pages}/{name}"] = (by_debian(data), is_run)
    return found


def stripped(program):
    """The program without its table of symbols."""
    with tempfile.TemporaryDirectory() as folder:
        subprocess.run(["strip", "--strip-unneeded", "-o", f"{folder}/program", program], check=True)
        with open(f"{folder}/program", "rb") as file:
            return file.read()


def lay_out(files, folder, time):
    """Writes the files of the package below a folder."""
    for place, (data, is_run) in files.items():
        name = os.path.join(folder, place)
        os.makedirs(os.path.dirname(name), mode=0o755, exist_ok=True)
        with open(name, "wb") as file:
            file.write(data)
        os.chmod(name, 0o755 if is_run else 0o644)
        os.utime(name, (time, time))


def make_package(files, package):
    """Makes the package. Its files have the time of the last commit."""
    time = int(output_of(["git", "log", "-1", "--format=%at"]))
    places = installed(files)
    sums = "".join(f"{hashlib.md5(data).hexdigest()}  {place}\n" for place, (data, _) in sorted(places.items()))
    with tempfile.TemporaryDirectory() as folder:
        os.chmod(folder, 0o755)
        lay_out(places, folder, time)
        for name in TOOLS:
            os.symlink(f"../share/acpiroute/{os.path.basename(name)}", f"{folder}/usr/bin/{tool_name(name)}")
            os.symlink("acpiroute.1.gz", f"{folder}/usr/share/man/man1/{tool_name(name)}.1.gz")
        size = sum(len(data) for data, _ in places.values())
        lay_out({"DEBIAN/control": (control(size).encode(), False), "DEBIAN/md5sums": (sums.encode(), False)}, folder, time)
        words = ["dpkg-deb", "--root-owner-group", "--build", folder, os.path.abspath(package)]
        subprocess.run(words, env={**os.environ, "SOURCE_DATE_EPOCH": str(time)}, stdout=subprocess.DEVNULL, check=True)


def package_runs(package):
    """Runs what a package has over an example, and lintian over it. The status is 0 where all went well."""
    with tempfile.TemporaryDirectory() as folder:
        subprocess.run(["dpkg-deb", "-x", os.path.abspath(package), folder], check=True)
        examples = f"{folder}/usr/share/doc/acpiroute/examples"
        for tool in TOOLS:
            subprocess.run([f"{folder}/usr/bin/{tool_name(tool)}", "--help"], stdout=subprocess.DEVNULL, check=True)
        with open(f"{examples}/two-links.txt", "rb") as text, open(f"{examples}/two-links.report", "rb") as report:
            done = subprocess.run([f"{folder}/usr/bin/acpiroute", "route"], stdin=text, capture_output=True, check=True)
            if done.stdout != report.read():
                print("release.py: the program of the package answers another report")
                return 1
    if not shutil.which("lintian"):
        print("lintian isn't installed: the package is not compared with Debian's rules")
        return 0
    return subprocess.run(["lintian", "--fail-on", "error", package]).returncode


def main():
    parser = argparse.ArgumentParser(description=__doc__, formatter_class=argparse.RawDescriptionHelpFormatter)
    parser.add_argument("--check", action="store_true")
    parser.add_argument("--deb", metavar="PACKAGE.deb")
    parser.add_argument("archive")
    asked = parser.parse_args()
    for name in (PROGRAM, LIBRARY, FOUND):
        if not os.path.exists(os.path.join(TOP, name)):
            sys.exit(f"release.py: {name} is not built")
    if not read(FOUND).startswith(b"proved: yes") or b"FAULT" in read(FOUND):
        sys.exit("release.py: the libraries for a kernel are not proved, or are not as they should be")
    files = contents()
    with open(asked.archive, "wb") as file:
        file.write(packed(files, f"acpiroute-{version()}"))
    if asked.deb:
        make_package(files, asked.deb)
    if asked.check:
        sys.exit(unpacked_runs(asked.archive) or (package_runs(asked.deb) if asked.deb else 0))


if __name__ == "__main__":
    main()
