"""What pyproject.toml cannot say of the wheel: it has compiled code for any Python 3, its script is a program, with a manual page, and PROOF is with what
it says of itself."""
import shutil
from distutils.command.build_scripts import build_scripts

from setuptools import Distribution, setup
from wheel.bdist_wheel import bdist_wheel


class Compiled(Distribution):
    """The library is compiled code, though setuptools compiles nothing."""

    def has_ext_modules(self):
        return True


class Wheel(bdist_wheel):
    """No version of Python is named, as the package loads the library by `ctypes`."""

    def get_tag(self):
        return "py3", "none", self.plat_name

    def egg2dist(self, egginfo_path, distinfo_path):
        super().egg2dist(egginfo_path, distinfo_path)
        shutil.copy("PROOF", distinfo_path)


class Scripts(build_scripts):
    """The program as it is: the command of setuptools would read it as a text."""

    def run(self):
        self.mkpath(self.build_dir)
        for script in self.scripts:
            self.copy_file(script, self.build_dir)


setup(scripts=["bin/cats"], data_files=[("share/man/man1", ["cats.1"])], distclass=Compiled, cmdclass={"bdist_wheel": Wheel, "build_scripts": Scripts})
