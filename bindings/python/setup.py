"""Builds the package resp over the library: the one in the folder that RESP_PREFIX names, or the one inside this folder,
or the one that ./build c installs in out/c."""
import os
import re

from setuptools import Extension, setup

HERE = os.path.dirname(os.path.realpath(__file__))
PLACES = [os.environ.get("RESP_PREFIX"), os.path.join(HERE, "libresp"), os.path.join(HERE, "..", "..", "out", "c")]


def prefix():
    """The folder of the library."""
    for place in PLACES:
        if place and os.path.isfile(os.path.join(place, "include", "resp.h")):
            return place
    raise SystemExit("libresp was not found: run ./build c, or set RESP_PREFIX to the folder that has include/resp.h")


PREFIX = prefix()


def version():
    """The version that the header of the library has."""
    with open(os.path.join(PREFIX, "include", "resp.h"), encoding="utf-8") as file:
        return re.search(r'#define RESP_VERSION "(.*)"', file.read())[1]


setup(
    name="resp",
    version=version(),
    description="Reads RESP2 and RESP3, the wire protocol of Redis, with a proved scanner",
    python_requires=">=3.8",
    packages=["resp"],
    package_dir={"": "src"},
    package_data={"resp": ["py.typed", "__init__.pyi"]},
    options={"bdist_wheel": {"py_limited_api": "cp38"}},
    ext_modules=[
        Extension(
            "resp._resp",
            sources=["_resp.c"],
            depends=["bytes.h", "older.h", "values.h"],
            include_dirs=[os.path.join(PREFIX, "include")],
            extra_objects=[os.path.join(PREFIX, "lib", "libresp.a")],
            # Each member of an array needs a call or two of Python. These options make such calls faster.
            extra_compile_args=["-O3", "-fno-plt"],
            extra_link_args=["-Wl,--exclude-libs,ALL"],
            py_limited_api=True,
        )
    ],
)
