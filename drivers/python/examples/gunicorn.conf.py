"""gunicorn's settings for transfers.py: each worker has a manager of its own, with `log = "decisions-{worker}.db"` in bank.toml."""

workers = 4
# A transaction that meets a silent database ends within three times the manager's `patience`, which is 30 seconds.
timeout = 100


def post_worker_init(worker):
    # Not in `post_fork`: there a worker still has the handlers of signals of the process that it was forked from.
    import transfers

    transfers.start_worker()


def worker_exit(server, worker):
    # A worker that is stopped has ended its requests: nothing stays prepared.
    import transfers

    if transfers.xa is not None:
        transfers.xa.close()
