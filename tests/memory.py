# After each of some calls, with `store` waiting for its next line, a core of the process is searched for every key that was ever handed in, in bytes, in halves and in hex: only the chip's may be there.
# Needs gdb's gcore. Run by `make memory`.
import os, secrets, shutil, subprocess, sys, tempfile

program = os.path.abspath(sys.argv[1])
folder = tempfile.mkdtemp()
store = subprocess.Popen([program], stdin=subprocess.PIPE, stdout=subprocess.PIPE, cwd=folder)
handed = []


def answer(line):
    store.stdin.write((line + "\n").encode())
    store.stdin.flush()
    return store.stdout.readline().decode().strip()


def chance(count):
    keys = [secrets.token_bytes(32) for _ in range(count)]
    handed.extend(keys)
    return answer("chance " + " ".join(key.hex() for key in keys))


def search(after):
    subprocess.run(["gcore", "-o", folder + "/core", str(store.pid)], check=True, stdout=subprocess.DEVNULL, stderr=subprocess.DEVNULL)
    path = f"{folder}/core.{store.pid}"
    core = open(path, "rb").read()
    os.remove(path)
    chip = open(folder + "/chip", "rb").read()[4:]
    assert core.count(chip) >= 1, "the chip's own key is not found: the search looks at the wrong memory"
    for key in handed:
        if key == chip:
            continue
        for part in (key, key[:16], key[16:], key.hex().encode()):
            assert part not in core, f"after {after}: a key that was handed in is in memory"


try:
    for place in range(4):
        assert chance(11) == "ok" and answer(f"put {place} {secrets.token_bytes(50).hex()}") == "ok"
        search(f"put {place}")
    assert chance(13) == "ok" and answer("out 2") == "ok"
    search("a taking out with keys to spare")
    assert len(answer("read 3")) == 100
    search("a reading")
    print(f"memory: {len(handed)} keys were handed in, and only the chip's is there")
finally:
    store.stdin.close()
    store.wait()
    shutil.rmtree(folder)
