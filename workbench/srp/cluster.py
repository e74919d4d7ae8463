"""Parts of a long run on a Dask cluster (Debian's python3-distributed). Its workers have this tree: they are started with its
workbench on PYTHONPATH, and each of their machines proves the program, or has it proved, before the first part."""
import os

from srp import programs
from srp.faults import Fault
from srp.needs import need

SECONDS_TO_CONNECT = 10


def make_ready(command):
    """On a worker: has the program proved and built. Gives what is wrong, or nothing."""
    try:
        programs.run(command or programs.PROVED_CALLS, b"")
    except Fault as fault:
        return str(fault)
    return ""


def one_of_each_machine(workers):
    """A worker of each machine."""
    return list({worker["host"]: address for address, worker in workers.items()}.values())


def connect(address):
    """A client of the scheduler, whose workers are ready."""
    distributed = need("distributed")
    try:
        client = distributed.Client(address, timeout=SECONDS_TO_CONNECT, set_as_default=False)
    except (OSError, ValueError, TimeoutError) as fault:
        raise Fault(f"--scheduler {address}: {fault}") from None
    try:
        workers = client.scheduler_info()["workers"]
        if not workers:
            raise Fault(f"--scheduler {address}: the cluster has no workers")
        check_workers(client, workers, address)
    except BaseException:
        client.close()
        raise
    return client


def check_workers(client, workers, address):
    """Whether every worker's machine can make calls."""
    try:
        said = client.run(make_ready, stand_in(), workers=one_of_each_machine(workers))
    except ImportError as fault:
        raise Fault(f"--scheduler {address}: a worker cannot import srp ({fault});"
                    " start workers with PYTHONPATH=workbench") from None
    for worker, words in said.items():
        if words:
            raise Fault(f"--scheduler {address}: worker {worker}: {words}")


def stand_in():
    """What SRP_CALLS names here stands in on the workers too."""
    return programs.calls_command() if os.environ.get("SRP_CALLS") else None


def results_of(address, function, shared, parts):
    """Each part with what function(shared, part, command) gives of it on some worker, as they are done."""
    distributed = need("distributed")
    with connect(address) as client:
        # handed to each worker once, and not with each part
        common = client.scatter(shared, broadcast=True, hash=False)
        waiting = {client.submit(function, common, part, stand_in(), pure=False): place for place, part in enumerate(parts)}
        for future in distributed.as_completed(waiting, loop=client.loop):
            yield waiting[future], result_of(future, address)


def result_of(future, address):
    """What a part gives."""
    try:
        return future.result()
    except Fault:
        raise
    except Exception as fault:
        raise Fault(f"--scheduler {address}: a part failed on its worker: {fault}") from None
