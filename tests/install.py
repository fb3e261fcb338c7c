#!/usr/bin/env python3
"""install.py: `make install` into a folder of its own: what it installs is all there and works from there, the command, the example for C with
the shared library and with the static one, the man page and the completions; and `make uninstall` takes it away."""
import os, shutil, subprocess, tempfile
from pathlib import Path

ROOT = Path(__file__).resolve().parent.parent
PREFIX = "/opt/some"


def run(*words, **more):
    done = subprocess.run(list(map(str, words)), capture_output=True, cwd=ROOT, **more)
    assert done.returncode == 0, done
    return done.stdout.decode()


def example(folder, flags, **environment):
    """the example, compiled with these flags from what is installed, says what it must"""
    program = folder / "example"
    run("gcc", "-std=gnu11", "-O2", "-Wall", "-Wextra", "-Werror", ROOT / "include/example.c", *flags, "-o", program)
    assert run(program, env=dict(os.environ, **environment)) == (ROOT / "include/example.out").read_text()
    return run("ldd", program, env=dict(os.environ, **environment))


def main():
    with tempfile.TemporaryDirectory() as name:
        folder = Path(name)
        made = folder / "made"
        root = made / PREFIX[1:]
        run("make", "install", f"DESTDIR={made}", f"PREFIX={PREFIX}")
        for path in (
            "bin/ropeinstant", "lib/libropeinstant.a", "lib/libropeinstant.so", "include/ropeinstant.h", "lib/pkgconfig/ropeinstant.pc",
            "share/man/man1/ropeinstant.1", "share/bash-completion/completions/ropeinstant", "share/zsh/site-functions/_ropeinstant",
            "share/fish/vendor_completions.d/ropeinstant.fish", "share/doc/ropeinstant/LICENSE",
        ):
            assert (root / path).stat().st_size > 0, path
        version = run(root / "bin/ropeinstant", "--version").split()[1]
        assert run(root / "bin/ropeinstant", "demo").endswith("the reel came back, byte for byte\n")

        listed = dict(os.environ, PKG_CONFIG_PATH=str(root / "lib/pkgconfig"), PKG_CONFIG_SYSROOT_DIR=str(made))
        assert run("pkg-config", "--modversion", "ropeinstant", env=listed).strip() == version
        flags = run("pkg-config", "--cflags", "--libs", "ropeinstant", env=listed).split()
        shared = example(folder, flags, LD_LIBRARY_PATH=str(root / "lib"))
        assert "libropeinstant.so.0 => " in shared, shared
        assert "libropeinstant" not in example(folder, [f"-I{root}/include", root / "lib/libropeinstant.a"])
        exported = [line.split()[-1] for line in run("nm", "-D", "--defined-only", root / "lib/libropeinstant.so").splitlines()]
        declared = {word.split("(")[0] for word in (root / "include/ropeinstant.h").read_text().split() if word.startswith("ropeinstant_") and "(" in word}
        assert set(exported) == declared - {"*ropeinstant_words", "ropeinstant_words"}, (exported, declared)

        page = root / "share/man/man1/ropeinstant.1"
        assert all(f".SS {word}\n" in page.read_text() for word in ("to\\-aces", "check", "inspect")), page.read_text()
        if shutil.which("groff"):
            said = subprocess.run(["groff", "-man", "-Tascii", "-ww", page], capture_output=True)
            assert said.returncode == 0 and not said.stderr, said.stderr
        run("bash", "-n", root / "share/bash-completion/completions/ropeinstant")

        run("make", "uninstall", f"DESTDIR={made}", f"PREFIX={PREFIX}")
        assert not [path for path in made.rglob("*") if not path.is_dir()]
    print(f"install: version {version} installs, works from there, links shared and static, and is taken away again")


if __name__ == "__main__":
    main()
