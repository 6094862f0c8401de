"""Cases of the program `shards` beside other programs and other runs of itself, and of files that are not its own; lost-shards runs them."""

import hashlib
import os
import subprocess
import time

from shard_program import FILE, PROGRAM, STRIPED, gives_up, joins, names, read, require, shards, split, write


def started(*words):
    """A run of the program, which goes on."""
    return subprocess.Popen([PROGRAM, *words], stdout=subprocess.DEVNULL, stderr=subprocess.PIPE, text=True)


def two_at_once(draws):
    """Of two runs that split files of one name into one folder at once, each that ends with 0 leaves a whole set, and nothing is left beside."""
    os.mkdir("out")
    contents = {}
    for name in ("a", "b"):
        os.mkdir(name)
        contents[name] = draws.randbytes(2_000_000)
        write(f"{name}/{FILE}", contents[name])
    for turn in range(30):
        words = ["--force"] * (turn % 3 > 0)
        runs = {name: started("split", f"{name}/{FILE}", *counts, "--out", "out", *words) for name, counts in (("a", ("4", "2")), ("b", ("6", "3")))}
        ended = {name: (run.communicate(timeout=300)[1], run.returncode) for name, run in runs.items()}
        done = [contents[name] for name, (_, status) in ended.items() if status == 0]
        require(done, f"no run ended with 0: {ended}")
        require(shards("join", f"out/{FILE}", "--force")[0] == 0 and read(f"out/{FILE}") in done, f"the set is not whole: {ended}")
        os.remove(f"out/{FILE}")
        require(not any(name.endswith((".part", ".lock")) for name in os.listdir("out")), f"left behind: {sorted(os.listdir('out'))}")
        if turn % 3 == 2:
            for name in os.listdir("out"):
                os.remove(f"out/{name}")


def split_beside_repair_and_join(draws):
    """A repair and a join beside a split of the same name: what ends with 0 has done what it says."""
    old, new = draws.randbytes(3_000_000), draws.randbytes(3_000_000)
    for words in (["repair", FILE], ["join", FILE, "--force"]):
        for wait in (0, 2, 5, 10, 20, 40):
            for name in names():
                os.remove(name)
            split(old, 4, 2)
            os.remove(f"{FILE}.1")
            write("kept", new)
            os.link("kept", FILE)
            other = started(*words)
            time.sleep(wait / 1000)
            status, _, said = shards("split", FILE, "4", "2", "--force")
            other.communicate(timeout=300)
            require(0 in (status, other.returncode), f"both failed: {said}")
            if status == 0 and words[0] == "repair":
                require(shards("join", FILE, "--force")[0] == 0 and read(FILE) in (old, new), "split: the set is not whole")
            require(not any(name.endswith((".part", ".lock")) for name in names()), f"left behind: {names()}")


def waits_for(path):
    """Waits until a file is there."""
    for _ in range(20_000):
        if os.path.exists(path):
            return
        time.sleep(0.001)
    require(False, f"{path} did not come")


def what_appears_stays(draws):
    """A file that another program puts at a place while the program works is not overwritten without --force."""
    content = draws.randbytes(STRIPED)
    write(FILE, content)
    with started("split", FILE, "4", "2") as run:
        waits_for(f"{FILE}.0.part")
        write(f"{FILE}.3", b"precious")
        said = run.communicate(timeout=300)[1]
    require(run.returncode == 1 and f"{FILE}.3" in said and read(f"{FILE}.3") == b"precious", f"split: status {run.returncode}, {said}")
    require(names() == [FILE, f"{FILE}.3"], f"left behind: {names()}")
    os.remove(f"{FILE}.3")
    split(content, 4, 2)
    with started("join", FILE) as run:
        waits_for(f"{FILE}.part")
        write(FILE, b"precious")
        said = run.communicate(timeout=300)[1]
    require(run.returncode == 1 and read(FILE) == b"precious", f"join: status {run.returncode}, {said}")
    require(not any(name.endswith((".part", ".lock")) for name in names()), f"left behind: {names()}")
    os.remove(FILE)
    stays_beside_a_repair(draws)


def stays_beside_a_repair(draws):
    """A file that comes to the place of a missing shard, or in place of a damaged one, while `repair` works stays, and then nothing is written."""
    whole = {name: read(name) for name in names()}
    own = sorted(whole)
    for place, turn in ((own[1], "come"), (own[4], "written"), (own[4], "renamed")):
        os.remove(own[1])
        write(own[4], whole[own[4]][:-1] + bytes([whole[own[4]][-1] ^ draws.randrange(1, 256)]))
        with started("repair", FILE) as run:
            waits_for(f"{own[1]}.part")
            write("new" if turn == "renamed" else place, b"precious")
            if turn == "renamed":
                os.rename("new", place)
            said = run.communicate(timeout=300)[1]
        require(run.returncode == 1 and place in said and read(place) == b"precious", f"repair, {turn}: status {run.returncode}, {said}")
        require(names() == [name for name in own if name in (place, *own[:1], *own[2:])], f"repair, {turn}: {names()}")
        status, _, said = shards("repair", FILE)
        require(status == 0 and {name: read(name) for name in names()} == whole, f"repair after {turn}: status {status}, {said}")


def bytes_behind(draws):
    """A shard that each of its files has bytes behind is told, and written again; its file is joined as if they were not there."""
    for length in (0, 5000):
        for name in names():
            os.remove(name)
        content = draws.randbytes(length)
        split(content, 4, 2)
        whole = [read(f"{FILE}.{index}") for index in range(6)]
        for index in (1, 4):
            write(f"{FILE}.{index}", whole[index] + b"\n")
        write("copy", whole[4])
        own = [f"{FILE}.{index}" for index in range(6)]
        for named, told in (([], (1, 4)), ([*own, "copy"], (1,)), (["copy", *own], (1,))):
            wanted = "".join(f"shard {index} has bytes behind its end\n" for index in told)
            status, said, _ = shards("verify", FILE, *named)
            require(status == 1 and said == wanted, f"verify of {length} bytes, {named}: status {status}, {said}")
        joins(content)
        os.remove(FILE)
        status, said, _ = shards("repair", FILE)
        require(status == 0 and said.startswith("2 of 6"), f"repair of {length} bytes: status {status}, {said}")
        require([read(name) for name in own] == whole and shards("verify", FILE)[0] == 0, f"repair of {length} bytes wrote other shards")


def files_of_the_user(draws):
    """What the program did not write is not removed: files of the names that it writes under at first, and links."""
    content = draws.randbytes(3000)
    split(content, 3, 2)
    os.remove(f"{FILE}.1")
    for name in (f"{FILE}.1.part", f"{FILE}.lock"):
        write(name, b"precious")
        for words in (["repair", FILE], ["repair", FILE, "--force"][: 2 + name.endswith(".lock")]):
            status, _, said = shards(*words)
            require(status == 1 and name in said and read(name) == b"precious", f"{words}: status {status}, {said.strip()}")
        os.remove(name)
    os.symlink("nowhere", f"{FILE}.1")
    for named in ([], [f"{FILE}.{index}" for index in range(5)]):
        status, _, said = shards("repair", FILE, *named)
        require(status == 1 and f"{FILE}.1" in said and os.path.islink(f"{FILE}.1"), f"repair {named}: status {status}, {said.strip()}")
    os.remove(f"{FILE}.1")
    os.mkdir(f"{FILE}.1")
    os.remove(f"{FILE}.0")
    status, _, said = shards("repair", FILE, "--force")
    require(status == 1 and f"{FILE}.1" in said and f"{FILE}.0" not in names(), f"repair onto a folder: status {status}, {said.strip()}")
    os.rmdir(f"{FILE}.1")
    # A lock that a killed run left is taken.
    write(f"{FILE}.lock", b"")
    require(shards("repair", FILE)[0] == 0, "repair beside an old lock")
    require(names() == [f"{FILE}.{index}" for index in range(5)], f"left behind: {names()}")
    joins(content)


def what_is_no_set(draws):
    """`verify` ends with 3 where there are no shards, or enough of two files."""
    require(shards("verify", FILE)[0] == 3, "verify of nothing")
    for length in (700, 900):
        split(draws.randbytes(length), 2, 1)
        for index in range(3):
            os.rename(f"{FILE}.{index}", f"{length}.{index}")
    named = [f"{length}.{index}" for length in (700, 900) for index in range(3)]
    require(shards("verify", FILE, *named)[0] == 3, "verify of two sets")


def head_of(identity):
    """The head of a shard of a file of one byte, by the code of transforms, with as many others as there may be."""
    fields = b"".join(it.to_bytes(size, "little") for it, size in ((2, 4), (32768, 4), (32768, 4), (0, 4), (1, 8), (2, 8)))
    head = b"shards 3" + fields + hashlib.sha256(identity.to_bytes(4, "little")).digest()
    return head + hashlib.sha256(head).digest()


def faults_of_a_search(draws):
    """`verify` ends with 2, and not as if there were no set or enough were left, where memory is refused, where the system does not say what
    is there, where nothing can be told, and where the words name a shard in place of its file."""
    split(draws.randbytes(700), 2, 1)
    own = [f"{FILE}.{index}" for index in range(3)]
    status, _, said = shards("verify", *own)
    require(status == 2 and "is itself a shard" in said, f"verify of a shard: status {status}, {said.strip()}")
    with open("/dev/full", "wb") as full:
        for lost in ([], own[:1]):
            require(shards("verify", FILE, *own[len(lost):], stdout=full)[0] == 2, "verify where nothing can be told")
    os.symlink("loop.0", "loop.0")
    status, _, said = shards("verify", "loop")
    require(status == 2 and "cannot look for shards of loop" in said, f"verify of what cannot be looked at: status {status}, {said.strip()}")
    gives_up("cannot look for shards of loop", file="loop")
    for name in ("x" * 255, f"{FILE}.0/none", "none/none"):
        status, _, said = shards("verify", name)
        require(status == 3 and "no shards" in said, f"verify of {name[:20]}: status {status}, {said.strip()}")
    # Each file has 65,536 flags, some 20 MB in all.
    for number in range(300):
        write(f"many.{number}", head_of(number))
    for kilobytes in (12_000, 16_000, 20_000, 30_000):
        words = ["bash", "-c", f'ulimit -v {kilobytes}; exec "$0" "$@"', PROGRAM, "verify", "many"]
        ran = subprocess.run(words, capture_output=True, text=True, timeout=300, check=False)
        require(ran.returncode == 2 and "memory" in ran.stderr, f"verify in {kilobytes} KB: status {ran.returncode}, {ran.stderr.strip()[:200]}")


def pipes(draws):
    """Nothing waits for a pipe: only regular files are read."""
    split(draws.randbytes(700), 2, 1)
    os.remove(f"{FILE}.0")
    os.mkfifo(f"{FILE}.0")
    require(shards("verify", FILE)[0] == 1, "verify beside a pipe")
    require(shards("join", FILE)[0] == 0, "join beside a pipe")
    os.remove(FILE)
    os.mkfifo(FILE)
    for words in (["split", FILE, "2", "1", "--force"], ["split", ".", "2", "1"]):
        status, _, said = shards(*words)
        require(status == 1 and "no regular file" in said, f"{words}: status {status}, {said.strip()}")
