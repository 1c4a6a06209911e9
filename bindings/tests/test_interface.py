"""What cats.h declares does not change without a new version and a new name of the shared library."""
import runpy

import pytest

HEADER = """
#ifndef X_H
#define X_H
#include <stdint.h>
#define CATS_VERSION "0.2.0"
#define LIMIT 7 // of steps
#define X_SIZE(n) (2 * (n))
#ifdef __cplusplus
extern "C" {
#endif
struct pair { int one; int other; }; // two
enum status { DONE = 0, REFUSED };
/* reads
   a text */
uint8_t x_read(const uint8_t *text,
               size_t length);
void x_end(void);
static inline uint8_t x_read_all(struct pair it) {
    return x_read(0, it.one);
}
#ifdef __cplusplus
}
#endif
#endif
"""
DECLARED = """#define LIMIT 7
#define X_SIZE(n) (2 * (n))
enum status { DONE = 0, REFUSED };
struct pair { int one; int other; };
uint8_t x_read(const uint8_t *text, size_t length);
void x_end(void);
"""
STORED = f"0.2.0 libcats.so.1\n\n{DECLARED}"


@pytest.fixture(scope="module")
def script(root):
    return runpy.run_path(str(root / "bindings/interface"))


def test_what_is_declared(script):
    assert script["interface"](HEADER) == DECLARED


@pytest.mark.parametrize("old, new", [("// two", "// 2"), ("it.one", "it.other"), ('"0.2.0"', '"0.3.0"'), ("text,\n    ", "text, "), ("void x_end(void);\n", "\nvoid  x_end(void);\n\n")])
def test_the_same_interface(script, old, new):
    """Comments, its own version and blanks are no part of it, so it needs nothing new; but nothing may fall."""
    judge, header = script["judge"], HEADER.replace(old, new)
    assert old in HEADER and judge(header, "0.2.0", "libcats.so.1", STORED) == judge(header, "0.10.1", "libcats.so.2", STORED) == ("", False)
    for names in (("0.1.9", "libcats.so.1"), ("0.2.0", "libcats.so.0")):
        assert "is before" in judge(header, *names, STORED)[0]


@pytest.mark.parametrize("old, new", [
    ("size_t length", "uint32_t length"), ("length);", "length, int more);"), ("int other;", "long other;"), ("int one; int other;", "int other; int one;"),
    ("REFUSED };", "REFUSED = 2 };"), ("LIMIT 7", "LIMIT 8"), ("(2 * (n))", "(3 * (n))"), ("void x_end(void);\n", ""), ("void x_end", "int x_more(void);\nvoid x_end"),
])
def test_another_interface(script, old, new):
    """It needs a greater version and a greater number in the name, with which it can be stored; until then something is wrong."""
    judge, header = script["judge"], HEADER.replace(old, new)
    assert old in HEADER
    for names in (("0.2.0", "libcats.so.1"), ("0.3.0", "libcats.so.1"), ("0.2.0", "libcats.so.2"), ("0.1.9", "libcats.so.2")):
        found, is_storable = judge(header, *names, STORED)
        assert "Raise the version" in found and not is_storable
    for names in (("0.2.1", "libcats.so.2"), ("0.10.0", "libcats.so.10")):
        found, is_storable = judge(header, *names, STORED)
        assert "--write" in found and is_storable


def test_one_more_number(script):
    """A number more at the end of an enum is stored as it is: programs that were compiled before go on."""
    header = HEADER.replace("REFUSED };", "REFUSED, HEAVY };")
    for names in (("0.2.0", "libcats.so.1"), ("0.3.0", "libcats.so.2")):
        found, is_storable = script["judge"](header, *names, STORED)
        assert header != HEADER and "--write" in found and is_storable


def test_what_is_stored(script):
    """The interface of cats.h is."""
    assert script["wrong"]() == []
