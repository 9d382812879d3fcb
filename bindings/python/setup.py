"""What pyproject.toml cannot say: that a wheel which holds the shared object is for one platform.

A setuptools without the command that makes wheels (before 70.1) takes it from the package `wheel`; where that is missing too, the
few lines below are that command, so that nothing need be fetched.
"""
import base64
import glob
import hashlib
import os
import shutil
import sysconfig
import zipfile

from setuptools import Command, setup

PLATFORM = sysconfig.get_platform().replace("-", "_").replace(".", "_")


def holds_library():
    folder = os.path.join(os.path.dirname(os.path.abspath(__file__)), "hyssopplinth")
    return bool(glob.glob(os.path.join(folder, "libhyssopplinth.so*")))


def tag():
    return ("py3", "none", PLATFORM if holds_library() else "any")


try:
    try:
        from setuptools.command.bdist_wheel import bdist_wheel
    except ImportError:
        from wheel.bdist_wheel import bdist_wheel

    class BuildWheel(bdist_wheel):
        def finalize_options(self):
            super().finalize_options()
            self.root_is_pure = not holds_library()

        def get_tag(self):
            return tag()

except ImportError:

    class BuildWheel(Command):
        """Makes a wheel: a zip of what `build` gives, with its metadata beside it."""
        description = "create a wheel"
        user_options = [("dist-dir=", "d", "where the wheel goes")]

        def initialize_options(self):
            self.dist_dir = None

        def finalize_options(self):
            self.dist_dir = self.dist_dir or "dist"

        def egg2dist(self, egg_info, dist_info):
            """The metadata of a wheel, made of those that `egg_info` gives."""
            shutil.rmtree(dist_info, ignore_errors=True)
            os.makedirs(dist_info)
            shutil.copy(os.path.join(egg_info, "PKG-INFO"), os.path.join(dist_info, "METADATA"))
            for name in ("top_level.txt", "entry_points.txt"):
                if os.path.exists(os.path.join(egg_info, name)):
                    shutil.copy(os.path.join(egg_info, name), dist_info)

        def run(self):
            build = self.get_finalized_command("build")
            shutil.rmtree(build.build_lib, ignore_errors=True)
            self.run_command("build")
            egg_info = self.get_finalized_command("egg_info")
            self.run_command("egg_info")
            name = f"{self.distribution.get_name()}-{self.distribution.get_version()}"
            dist_info = os.path.join(build.build_lib, f"{name}.dist-info")
            self.egg2dist(egg_info.egg_info, dist_info)
            with open(os.path.join(dist_info, "WHEEL"), "w", encoding="utf-8") as file:
                file.write(f"Wheel-Version: 1.0\nGenerator: hyssopplinth\nRoot-Is-Purelib: {str(not holds_library()).lower()}\n"
                           f"Tag: {'-'.join(tag())}\n")
            os.makedirs(self.dist_dir, exist_ok=True)
            path = os.path.join(self.dist_dir, f"{name}-{'-'.join(tag())}.whl")
            record = []
            with zipfile.ZipFile(path, "w", zipfile.ZIP_DEFLATED) as wheel:
                for folder, _, files in sorted(os.walk(build.build_lib)):
                    for file in sorted(files):
                        full = os.path.join(folder, file)
                        within = os.path.relpath(full, build.build_lib).replace(os.sep, "/")
                        wheel.write(full, within)
                        with open(full, "rb") as source:
                            data = source.read()
                        digest = base64.urlsafe_b64encode(hashlib.sha256(data).digest()).rstrip(b"=").decode()
                        record.append(f"{within},sha256={digest},{len(data)}\n")
                within = f"{name}.dist-info/RECORD"
                wheel.writestr(within, "".join(record) + f"{within},,\n")
            self.distribution.dist_files.append(("bdist_wheel", "py3", path))


setup(cmdclass={"bdist_wheel": BuildWheel})
