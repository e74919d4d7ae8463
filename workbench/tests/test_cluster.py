"""Parts on a Dask cluster: a scheduler and two workers on this machine."""
import os
import socket
import subprocess
import sys
import time

import pytest
from conftest import CHOIR, ROOT

pytest.importorskip("distributed")

HALL = "examples/why-refused/hall.txt"


def started(module, *words, folder):
    """A process of Dask, which has the package, and these tests for a part of their own."""
    path = f"{ROOT}/workbench:{ROOT}/workbench/tests"
    environment = os.environ | {"PYTHONPATH": path, "PYTHONDONTWRITEBYTECODE": "1"}
    return subprocess.Popen([sys.executable, "-m", f"distributed.cli.{module}", *map(str, words)], cwd=folder, env=environment,
                            stdout=subprocess.DEVNULL, stderr=subprocess.DEVNULL)


def free_port():
    with socket.socket() as one:
        one.bind(("127.0.0.1", 0))
        return one.getsockname()[1]


@pytest.fixture(scope="module")
def cluster(tmp_path_factory):
    """The address of a scheduler with two workers."""
    folder, port = tmp_path_factory.mktemp("cluster"), free_port()
    address = f"tcp://127.0.0.1:{port}"
    processes = [started("dask_scheduler", "--host", "127.0.0.1", "--port", port, "--no-dashboard", folder=folder)]
    processes += [started("dask_worker", address, "--nthreads", 1, "--no-dashboard", "--no-nanny", "--host", "127.0.0.1",
                          "--local-directory", folder / f"worker{number}", folder=folder) for number in (1, 2)]
    wait_for_workers(address, 2)
    yield address
    for process in processes:
        process.terminate()
    for process in processes:
        process.wait(20)


def wait_for_workers(address, number):
    from distributed import Client

    for _ in range(60):
        try:
            with Client(address, timeout=2, set_as_default=False) as client:
                client.wait_for_workers(number, timeout=30)
                return
        except (OSError, TimeoutError):
            time.sleep(0.2)
    raise AssertionError("no cluster")


def test_restarts_on_a_cluster(srp, cluster):
    assert srp("restarts", 200, CHOIR, "--scheduler", cluster) == srp("restarts", 200, CHOIR)


def test_a_stand_in_stands_in_there_too(srp, cluster):
    from test_restarts import WRONG

    words = "restarts", 120, CHOIR
    assert srp(*words, "--scheduler", cluster, status=1, environment=WRONG) == srp(*words, status=1, environment=WRONG)


def test_a_sweep_on_a_cluster_is_kept(srp, cluster, tmp_path):
    kept = tmp_path / "kept"
    whole = srp("restarts", 120, CHOIR, "--scheduler", cluster, "--resume", kept)
    assert len(kept.read_text().splitlines()) == 4 and srp("restarts", 120, CHOIR, "--resume", kept) == whole


def test_histories_on_a_cluster(srp, cluster):
    words = "history", "--csv", CHOIR, HALL, CHOIR
    assert srp(*words, "--scheduler", cluster) == srp(*words)


def test_both_workers_have_parts(cluster):
    from srp import cluster as parts

    found = dict(parts.results_of(cluster, who_works, None, range(8)))
    assert sorted(found) == list(range(8)) and len(set(found.values())) == 2


def who_works(_shared, _part, _command):
    from distributed import get_worker

    time.sleep(0.2)
    return get_worker().address


def test_no_scheduler(srp, monkeypatch):
    from srp import cluster as parts

    monkeypatch.setattr(parts, "SECONDS_TO_CONNECT", 1)
    said = srp("restarts", 10, CHOIR, "--scheduler", f"tcp://127.0.0.1:{free_port()}", status=2)
    assert "--scheduler tcp://127.0.0.1:" in said and said.count("\n") == 1
