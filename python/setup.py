"""What pyproject.toml cannot say: the shared object is linked and put beside
the module, so the package is for this platform."""

import shutil
import subprocess
from pathlib import Path

from setuptools import Distribution, setup
from setuptools.command.build_py import build_py

HERE = Path(__file__).resolve().parent
TARGET = HERE.parent / "target"
OBJECT = TARGET / "shared/libcoronagamba.so"
# `build` in this folder is a script, so setuptools works elsewhere.
WORK = TARGET / "python"
WORK.mkdir(parents=True, exist_ok=True)


class Build(build_py):
    def run(self):
        # Modules of an earlier build are not packed.
        shutil.rmtree(self.build_lib, ignore_errors=True)
        super().run()
        subprocess.run([str(HERE / "build")], check=True)
        self.copy_file(str(OBJECT), str(Path(self.build_lib) / "coronagamba"))


class Platform(Distribution):
    def has_ext_modules(self):
        return True


setup(
    cmdclass={"build_py": Build},
    distclass=Platform,
    options={
        "build": {"build_base": str(WORK)},
        "egg_info": {"egg_base": str(WORK)},
    },
)
