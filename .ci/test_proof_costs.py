"""Tests of the costs of functions, read from the files of a check's kept work."""
import os

import proof_costs


def test_a_file_is_its_function_s():
    names = [
        "Rattle-two-proofs.pair.Pair.both.Lts.oantt",
        "Rattle-two-proofs.pair.Pair.both.Lts.View.decls.oantt",
        "Rattle-two-proofs.pair.Pair.both.Proof.decls.oantt",
        "Rattle-two-proofs.pair.+parity.Lts-even.oantt",
        "Rattle-other-proofs.pair.Pair.both.Lts.oantt",
        "rattle-last-used",
    ]
    files = [(0.0, "judged"), *((float(2**at), it) for at, it in enumerate(names))]
    whole, code = proof_costs.costs("two", files)
    assert dict(whole) == {"pair.Pair.both": 4.0, "pair.+parity": 4.0}
    assert dict(code) == {"pair.Pair.both": 2.0, "pair.+parity": 4.0}


def test_files_come_in_the_order_of_their_times(tmp_path):
    (tmp_path / "inner").mkdir()
    for at, name in enumerate(["inner/b", "a", "inner/c"]):
        (tmp_path / name).touch()
        os.utime(tmp_path / name, (at, at))
    assert proof_costs.written(tmp_path) == [(0.0, "b"), (1.0, "a"), (2.0, "c")]
