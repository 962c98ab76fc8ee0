"""transfer.py SETUP STEPS: makes the steps of a file and prints their answers, as `argus steps` does."""
import pathlib
import sys
import tempfile

import argus


def raises(fault, call, *words):
    try:
        call(*words)
    except fault:
        return True
    return False


def mistakes(setup):
    world = argus.World(setup)
    assert world.base(9, 9) is None
    for line in (b"", b"top", b"top \xff"):
        assert raises(argus.Bad, world.step, line)
    assert raises(argus.Bad, world.commit, "1.")
    assert raises(argus.Bad, world.top, -1)
    assert world.top(1) == argus.Answer("began 1")
    assert world.call("1", 1).words == ["1.1"]
    assert world.op("1.1", 1, 1, "get balance").line == "granted 100"
    assert world.commit("1.1").kind == "done"
    assert world.tell(1, "1.1").kind == "done"
    assert world.close_top("1").kind == "done"
    assert world.prepare(1, "1").line == "vote yes"
    assert world.decide("1").kind == "done"
    world.close()
    world.close()
    assert raises(argus.Closed, world.step, "top 1")
    assert raises(argus.Bad, argus.World, b"{")
    with tempfile.TemporaryDirectory() as folder:
        mistakes_of_stores(pathlib.Path(folder), setup)


def mistakes_of_stores(folder, setup):
    assert raises(argus.NotOurs, argus.World.reopen, folder, setup)
    with argus.World.over(folder, setup) as world:
        assert world.top(1).line == "began 1"
    assert raises(FileExistsError, argus.World.over, folder, setup)
    text = (folder / "g1.json").read_bytes()
    for wrong in (text[:-1], b"\xff", b"{}"):
        (folder / "g1.json").write_bytes(wrong)
        assert raises(argus.Bad, argus.World.reopen, folder, setup)
    (folder / "g1.json").write_bytes(b"")
    assert raises(argus.NotOurs, argus.World.reopen, folder, setup)
    (folder / "g1.json").write_bytes(text)
    (folder / "g2.json").write_bytes(text)
    assert raises(argus.NotOurs, argus.World.reopen, folder, setup)
    (folder / "g2.json").unlink()
    with argus.World.reopen(folder, setup) as world:
        assert world.base(1, 1) == '{"record":{"balance":100}}'


def main(setup, steps):
    setup = pathlib.Path(setup).read_bytes()
    mistakes(setup)
    with argus.World(setup) as world:
        for line in pathlib.Path(steps).read_bytes().splitlines():
            print(world.step(line).line)
        assert world.base(1, 1) == '{"record":{"balance":70}}'


main(*sys.argv[1:])
